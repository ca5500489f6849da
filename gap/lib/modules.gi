#############################################################################
##
##  modules.gi: modules, the spaces that vectors generate in them, submodules, quotients and duals
##

# runs command lines, as AXE_Run does, in a folder with the module `module`, a file for each generator, and with other
# matrices of as many columns: pairs of a name and a matrix
BindGlobal( "AXE_RunOn", function( module, others, lines, take )
  local files;
  files := AXE_ModuleFiles( "module", module );
  Append( files, List( others, pair -> AXE_MatrixFile( pair[ 1 ], pair[ 2 ], module.field, module.dimension ) ) );
  return AXE_Run( files, lines, take );
end );

# the module from what a call was given: a module, or matrices and a field
BindGlobal( "AXE_ModuleOf", function( words )
  if Length( words ) = 1 then return words[ 1 ]; fi;
  return GModuleByMats( words[ 1 ], words[ 2 ] );
end );

# a vector as the one row of a matrix, and a matrix as it is
BindGlobal( "AXE_AsRows", function( vectors )
  if Length( vectors ) > 0 and not IsList( vectors[ 1 ] ) then return [ vectors ]; fi;
  return vectors;
end );

# spins vectors with some options for zsp
BindGlobal( "AXE_Spun", function( vectors, module, options, take )
  return AXE_RunOn( module, [ [ "vectors", AXE_AsRows( vectors ) ] ],
    [ AXE_Line( "axe zsp", options, "-g", Length( module.generators ), "module vectors basis" ) ], take );
end );

InstallGlobalFunction( AxePermutationModule, function( group, field, degree... )
  local permutations;
  permutations := group;
  if IsGroup( group ) then permutations := GeneratorsOfGroup( group ); fi;
  if degree = [] then degree := [ LargestMovedPoint( permutations ) ]; fi;
  return GModuleByMats( List( permutations, p -> PermutationMat( p, degree[ 1 ], field ) ), degree[ 1 ], field );
end );

InstallGlobalFunction( AxeDualModule, function( module )
  local number, lines;
  number := Length( module.generators );
  lines := List( [ 1 .. number ], i -> [ AXE_Line( "axe ziv", AXE_GeneratorFile( "module", i ), "inverse" ),
    AXE_Line( "axe ztr inverse", AXE_GeneratorFile( "dual", i ) ) ] );
  return AXE_RunOn( module, [], Concatenation( lines ),
    folder -> AxeReadModule( Concatenation( folder, "dual" ), number ) );
end );

InstallGlobalFunction( AxeSpinnedBasis, function( vectors, words... )
  return AXE_Spun( vectors, AXE_ModuleOf( words ), "", folder -> AxeReadMatrix( Concatenation( folder, "basis" ) ) );
end );

InstallGlobalFunction( AxeStandardBasis, function( vector, words... )
  return AXE_Spun( vector, AXE_ModuleOf( words ), "-b", folder -> AxeReadMatrix( Concatenation( folder, "basis" ) ) );
end );

InstallGlobalFunction( AxeInducedActionSubmodule, function( module, basis )
  local number, found, pivots, change;
  number := Length( module.generators );
  found := AXE_Spun( basis, module, "-a action", folder -> [ AxeReadMatrix( Concatenation( folder, "basis" ) ),
    AxeReadModule( Concatenation( folder, "action" ), number ) ] );
  # a basis spans what it generates, and is independent
  if Length( found[ 1 ] ) <> Length( basis ) or RankMat( basis ) <> Length( basis ) then
    ErrorNoReturn( "the rows are no basis of a submodule" );
  fi;
  # a reduced basis is the identity at its pivots, so the given one has there its coefficients over the reduced one
  pivots := List( found[ 1 ], PositionNonZero );
  change := ImmutableMatrix( module.field, basis{ [ 1 .. Length( basis ) ] }{ pivots } );
  if IsOne( change ) then return found[ 2 ]; fi;
  return GModuleByMats( List( found[ 2 ].generators, g -> change * g * change ^ -1 ), module.field );
end );

InstallGlobalFunction( AxeInducedActionFactorModule, function( module, vectors )
  local number;
  number := Length( module.generators );
  return AXE_RunOn( module, [ [ "vectors", AXE_AsRows( vectors ) ] ],
    [ AXE_Line( "axe zqt -g", number, "vectors module quotient" ) ],
    folder -> AxeReadModule( Concatenation( folder, "quotient" ), number ) );
end );
