#############################################################################
##
##  series.gi: composition series
##

# Of a constituent it is known that it is irreducible, and no more, while functions of MTX go on from an element of its
# algebra, which the test of GAP finds. So where they ask for one that a module hasn't, that test is made first.
Perform( [ "AlgEl", "AlgElMat", "AlgElCharPol", "AlgElCharPolFac", "AlgElNullspaceVec", "AlgElNullspaceDimension" ],
  function( name )
    local known;
    known := SMTX.( name );
    SMTX.( name ) := function( module )
      if known( module ) = fail and SMTX.HasIsIrreducible( module ) and SMTX.IsIrreducible( module ) then
        SMTX.IrreducibilityTest( module );
      fi;
      return known( module );
    end;
  end );

# the words that hand GAP's option of a name on to the program
BindGlobal( "AXE_Option", function( name )
  if ValueOption( name ) = fail then return ""; fi;
  return AXE_Line( Concatenation( "--", name ), AXE_Quoted( String( ValueOption( name ) ) ) );
end );

# The name of the module of a call, which is kept in one file, as each constituent is. The program has the disk take
# each file that it writes: so a chop of M24 on 24 points took 0.13 to 0.17 seconds, and 0.20 to 0.23 where each generator
# had a file; one of 16 generators of dimension 12 took 0.16 to 0.17, and 0.45 to 0.57.
BindGlobal( "AXE_Module", Concatenation( "module", AXE_Ending ) );

# chops a module; `take` is given its name
BindGlobal( "AXE_Chop", function( module, take )
  return AXE_Run( AXE_ModuleFiles( AXE_Module, module ),
    [ AXE_Line( "axe chop -m", AXE_Option( "seed" ), AXE_Option( "words" ), "module" ) ],
    folder -> take( Concatenation( folder, AXE_Module ) ) );
end );

# the names of the files that chop writes beside a module of this name: the report, the basis, and a constituent
BindGlobal( "AXE_ReportFile", name -> Concatenation( AXE_PartsOfName( name )[ 1 ], ".rep" ) );
BindGlobal( "AXE_BasisFile", name -> Concatenation( AXE_PartsOfName( name )[ 1 ], ".bas" ) );
BindGlobal( "AXE_FactorName", function( name, factor )
  local parts;
  parts := AXE_PartsOfName( name );
  return Concatenation( parts[ 1 ], factor, parts[ 2 ] );
end );

# the constituents that a report names
BindGlobal( "AXE_FactorsAt", function( name, report )
  local read;
  read := function( factor )
    local module;
    module := AxeReadModule( AXE_FactorName( name, factor ), report.generators );
    MTX.SetIsIrreducible( module, true );
    return module;
  end;
  return List( report.names, read );
end );

InstallGlobalFunction( AxeReadSeries, function( name )
  local report;
  report := AxeReadReport( AXE_ReportFile( name ) );
  return rec( basis := AxeReadMatrix( AXE_BasisFile( name ) ), factors := AXE_FactorsAt( name, report ),
    multiplicities := report.multiplicities, series := report.series, names := report.names, report := report );
end );

# The files that AxeReadSeries reads, the report last, as pairs of a name and bytes. What the record and its report both
# have is the record's.
BindGlobal( "AXE_SeriesFiles", function( name, series )
  local report, part, factors;
  report := ShallowCopy( series.report );
  for part in [ "names", "multiplicities", "series" ] do report.( part ) := series.( part ); od;
  factors := List( [ 1 .. Length( series.factors ) ],
    i -> AXE_ModuleFiles( AXE_FactorName( name, report.names[ i ] ), series.factors[ i ] ) );
  return Concatenation(
    [ AXE_MatrixFile( AXE_BasisFile( name ), series.basis, report.field, AXE_Columns( series.basis, 1 ) ) ],
    Concatenation( factors ), [ [ AXE_ReportFile( name ), AXE_TextOfReport( report ) ] ] );
end );

InstallGlobalFunction( AxeWriteSeries, function( name, series )
  AXE_WriteFiles( AXE_SeriesFiles( name, series ) );
end );

InstallGlobalFunction( AxeChop, module -> AXE_Chop( module, AxeReadSeries ) );

InstallGlobalFunction( AxeCollectedFactors, function( module )
  return AXE_Chop( module, function( name )
    local report, factors;
    report := AxeReadReport( AXE_ReportFile( name ) );
    factors := AXE_FactorsAt( name, report );
    return List( [ 1 .. Length( factors ) ], i -> [ factors[ i ], report.multiplicities[ i ] ] );
  end );
end );

InstallGlobalFunction( AxeCompositionFactors, function( module )
  return AXE_Chop( module, function( name )
    local report;
    report := AxeReadReport( AXE_ReportFile( name ) );
    return AXE_FactorsAt( name, report ){ report.series };
  end );
end );

InstallGlobalFunction( AxeBasesCompositionSeries, function( module )
  return AXE_Chop( module, function( name )
    local report, basis, bases, dimension, place;
    report := AxeReadReport( AXE_ReportFile( name ) );
    basis := AxeReadMatrix( AXE_BasisFile( name ) );
    bases := [ [] ];
    dimension := 0;
    for place in report.series do
      dimension := dimension + report.dimensions[ place ];
      Add( bases, ImmutableMatrix( module.field, TriangulizedMat( basis{ [ 1 .. dimension ] } ) ) );
    od;
    return bases;
  end );
end );

InstallGlobalFunction( AxeIsIrreducible, function( module )
  local answer;
  answer := AXE_Chop( module, name -> Length( AxeReadReport( AXE_ReportFile( name ) ).series ) = 1 );
  if answer = true then MTX.SetIsIrreducible( module, true ); fi;
  return answer;
end );

# the words of verify for the module of this name
BindGlobal( "AXE_LineToVerify", function( name )
  local parts;
  parts := AXE_PartsOfName( name );
  if parts[ 2 ] = "" then return AXE_Line( "axe verify", AXE_Quoted( parts[ 1 ] ) ); fi;
  return AXE_Line( "axe verify -m", AXE_Quoted( parts[ 1 ] ) );
end );

# verifies the series of a module in files, where they are
BindGlobal( "AXE_VerifyFiles", function( name )
  local slashes, folder, file;
  slashes := Positions( name, '/' );
  folder := "./";
  file := name;
  if slashes <> [] then
    folder := name{ [ 1 .. Last( slashes ) ] };
    file := name{ [ Last( slashes ) + 1 .. Length( name ) ] };
  fi;
  if not IsDirectoryPath( folder ) = true then ErrorNoReturn( "there is no folder ", folder ); fi;
  return AXE_Run( [], [ "cd \"$here\"", AXE_Line( "cd", AXE_Quoted( folder ) ), AXE_LineToVerify( file ) ],
    ReturnTrue );
end );

InstallGlobalFunction( AxeVerify, function( module, series... )
  if series = [] and not IsString( module ) then
    ErrorNoReturn( "a module and its series are wanted, or the name of a module in files" );
  fi;
  if series = [] then return AXE_VerifyFiles( module ); fi;
  return AXE_Run(
    Concatenation( AXE_ModuleFiles( AXE_Module, module ), AXE_SeriesFiles( AXE_Module, series[ 1 ] ) ),
    [ AXE_LineToVerify( AXE_Module ) ], ReturnTrue );
end );
