# Composition series, beside those of GAP's own MeatAxe.
gap> START_TEST( "series.tst" );

# a chop in full: the basis, the blocks on the diagonal, and what is known of the factors
gap> m24 := AxePermutationModule( MathieuGroup( 24 ), GF( 2 ) );;
gap> chopped := AxeChop( m24 );;
gap> Set( RecNames( chopped ) );
[ "basis", "factors", "multiplicities", "names", "report", "series" ]
gap> chopped.names;
[ "1a", "11a", "11b" ]
gap> chopped.multiplicities;
[ 2, 1, 1 ]
gap> List( chopped.factors, MTX.Dimension );
[ 1, 11, 11 ]
gap> ForAll( chopped.factors, MTX.HasIsIrreducible ) and ForAll( chopped.factors, MTX.IsIrreducible );
true
gap> report := chopped.report;;
gap> report.field = GF( 2 ) and report.dimension = 24 and report.seed = 1 and report.words = 400;
true
gap> has_blocks := function( module, chopped )
>   local g, number, conjugate, at, place, factor, ends;
>   for number in [ 1 .. Length( module.generators ) ] do
>     conjugate := chopped.basis * module.generators[ number ] * chopped.basis ^ -1;
>     at := 0;
>     for place in chopped.series do
>       factor := chopped.factors[ place ];
>       ends := [ at + 1 .. at + factor.dimension ];
>       if conjugate{ ends }{ ends } <> factor.generators[ number ] then return false; fi;
>       at := at + factor.dimension;
>       if ForAny( conjugate{ ends }, row -> PositionNot( row, 0 * row[ 1 ], at ) <= module.dimension ) then
>         return false;
>       fi;
>     od;
>     if at <> module.dimension then return false; fi;
>   od;
>   return true;
> end;;
gap> has_blocks( m24, chopped );
true

# MTX goes on from what is known
gap> MTX.IsAbsolutelyIrreducible( chopped.factors[ 2 ] );
true
gap> List( chopped.factors, f -> MTX.IsEquivalent( f, AxeDualModule( chopped.factors[ 2 ] ) ) );
[ false, false, true ]
gap> factors := AxeChop( m24 ).factors;;
gap> MTX.IsomorphismModules( factors[ 2 ], factors[ 3 ] );
fail
gap> Length( MTX.Homomorphisms( factors[ 1 ], m24 ) );
1

# the shorter answers
gap> List( AxeCompositionFactors( m24 ), MTX.Dimension ) = List( chopped.series, i -> chopped.factors[ i ].dimension );
true
gap> List( AxeCollectedFactors( m24 ), pair -> [ pair[ 1 ].dimension, pair[ 2 ] ] );
[ [ 1, 2 ], [ 11, 1 ], [ 11, 1 ] ]
gap> bases := AxeBasesCompositionSeries( m24 );;
gap> List( [ 1 .. 4 ], k -> Length( bases[ k + 1 ] ) - Length( bases[ k ] ) ) = report.dimensions{ report.series };
true
gap> bases[ 1 ] = [] and Length( bases ) = 5;
true
gap> is_invariant := function( basis )
>   return ForAll( m24.generators, g -> RankMat( Concatenation( basis, basis * g ) ) = Length( basis ) );
> end;;
gap> ForAll( bases{ [ 2 .. 5 ] }, is_invariant );
true
gap> ForAll( bases{ [ 2 .. 5 ] }, basis -> basis = TriangulizedMat( basis ) );
true
gap> AxeIsIrreducible( m24 );
false
gap> MTX.HasIsIrreducible( m24 );
false
gap> natural := GModuleByMats( GeneratorsOfGroup( SL( 3, 4 ) ), GF( 4 ) );;
gap> AxeIsIrreducible( natural ) and MTX.HasIsIrreducible( natural ) and MTX.IsAbsolutelyIrreducible( natural );
true

# a series of it, and what is none: the first reason is told
gap> AxeVerify( m24, chopped );
true
gap> SetInfoLevel( InfoAxe, 1 );
gap> changed := function( change )
>   local other;
>   other := StructuralCopy( chopped );
>   change( other );
>   return AxeVerify( m24, other );
> end;;
gap> changed( function( other ) other.basis := other.basis * 0; end );
#I  axe verify -m 'module'
#I  axe: NotVerified basis
false
gap> changed( function( other ) other.basis := One( other.basis ); end );
#I  axe verify -m 'module'
#I  axe: NotVerified blocks
false
gap> changed( function( other ) other.factors[ 3 ] := AxePermutationModule( MathieuGroup( 24 ), GF( 2 ) ); end );
#I  axe verify -m 'module'
#I  axe: NotVerified shape 11b
false
gap> changed( function( other ) other.report.witnesses[ 2 ] := rec( word := 0, poly := "11" ); end );
#I  axe verify -m 'module'
#I  axe: NotVerified open 11a
false
gap> AxeVerify( AxePermutationModule( MathieuGroup( 23 ), GF( 2 ), 23 ), chopped );
#I  axe verify -m 'module'
#I  axe: NotVerified header
false
gap> SetInfoLevel( InfoAxe, 0 );
gap> changed( function( other ) other.report.version := 1; end );
Error, axe: module.rep: OldReport
gap> changed( function( other ) other.series := [ 1, 2, 1, 3 ]; end );
false
gap> changed( function( other ) other.multiplicities := [ 1, 1, 2 ]; end );
Error, axe: module.rep: BadReport line 4
gap> AxeVerify( m24 );
Error, a module and its series are wanted, or the name of a module in files

# options: they show in the report
gap> AxeChop( m24 : seed := 2 ^ 64 - 1, words := 1000 ).report.seed = 2 ^ 64 - 1;
true
gap> AxeChop( m24 : words := 1000 ).report.words;
1000

# agreement with MTX
gap> permutations := function( group, q ) return AxePermutationModule( group, GF( q ) ); end;;
gap> tensor := function( group, q )
>   return GModuleByMats( List( GeneratorsOfGroup( group ), g -> KroneckerProduct( g, g ) ), GF( q ) );
> end;;
gap> wreath := Group( (1,2), (1,2,3), (1,4)(2,5)(3,6), (1,4,7,10)(2,5,8,11)(3,6,9,12) );;
gap> modules := [
>   permutations( MathieuGroup( 11 ), 3 ), permutations( MathieuGroup( 12 ), 5 ), permutations( MathieuGroup( 22 ), 2 ),
>   permutations( MathieuGroup( 24 ), 2 ), permutations( PSL( 2, 7 ), 7 ), permutations( wreath, 3 ),
>   tensor( SL( 2, 4 ), 4 ), tensor( SL( 2, 8 ), 8 ), tensor( SL( 2, 9 ), 9 ), tensor( SU( 3, 3 ), 9 ),
>   tensor( SL( 3, 7 ), 7 ), tensor( Sp( 4, 5 ), 5 ) ];;
gap> Set( modules, module -> Length( module.generators ) );
[ 2, 3, 4 ]
gap> Set( modules, module -> Size( module.field ) );
[ 2, 3, 4, 5, 7, 8, 9 ]
gap> agrees := function( module )
>   local mine, found;
>   mine := AxeCollectedFactors( module );
>   found := MTX.CollectedFactors( module );
>   return Length( mine ) = Length( found ) and ForAll( mine, one -> Number( found, other -> one[ 2 ] = other[ 2 ]
>     and one[ 1 ].dimension = other[ 1 ].dimension and MTX.IsomorphismModules( one[ 1 ], other[ 1 ] ) <> fail ) = 1 );
> end;;
gap> List( modules, agrees );
[ true, true, true, true, true, true, true, true, true, true, true, true ]
gap> found := List( modules, AxeChop );;
gap> ForAll( [ 1 .. 12 ], i -> has_blocks( modules[ i ], found[ i ] ) and AxeVerify( modules[ i ], found[ i ] ) );
true
gap> AxeVerify( modules[ 7 ], found[ 8 ] );
false

#
gap> STOP_TEST( "series.tst" );
