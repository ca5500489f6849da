# Submodules, quotients and duals, beside those of GAP's own MeatAxe.
gap> START_TEST( "modules.tst" );
gap> m11 := Group( (1,2,3,4,5,6,7,8,9,10,11), (3,7,11,8)(4,10,5,6) );;
gap> module := AxePermutationModule( m11, GF( 3 ) );;
gap> module = PermutationGModule( m11, GF( 3 ) );
true
gap> AxePermutationModule( [ (1,2), (2,3) ], GF( 2 ), 5 ).dimension;
5
gap> ones := [ List( [ 1 .. 11 ], i -> Z( 3 ) ^ 0 ) ];;
gap> difference := List( [ 1 .. 11 ], i -> 0 * Z( 3 ) );; difference[ 1 ] := Z( 3 ) ^ 0;; difference[ 2 ] := Z( 3 );;

# the space that vectors generate
gap> spun := AxeSpinnedBasis( difference, module );;
gap> spun = TriangulizedMat( MTX.SpinnedBasis( difference, module.generators, GF( 3 ) ) );
true
gap> spun = AxeSpinnedBasis( [ difference ], module.generators, GF( 3 ) );
true
gap> AxeSpinnedBasis( ones, module ) = ones;
true
gap> standard := AxeStandardBasis( difference, module );;
gap> standard[ 1 ] = difference and standard[ 2 ] = difference * module.generators[ 1 ] and RankMat( standard ) = 10;
true
gap> TriangulizedMat( standard ) = spun;
true

# the action on it, by a reduced basis and by another, and modulo it
gap> AxeInducedActionSubmodule( module, spun ).generators = MTX.InducedActionSubmodule( module, spun ).generators;
true
gap> found := AxeInducedActionSubmodule( module, standard );;
gap> found.generators = MTX.InducedActionSubmodule( module, standard ).generators;
true
gap> AxeInducedActionSubmodule( module, spun{ [ 1 .. 9 ] } );
Error, the rows are no basis of a submodule
gap> AxeInducedActionSubmodule( module, Concatenation( ones, ones ) );
Error, the rows are no basis of a submodule
gap> AxeInducedActionFactorModule( module, ones ).generators = MTX.InducedActionFactorModule( module, ones ).generators;
true
gap> AxeInducedActionFactorModule( module, spun ).generators = MTX.InducedActionFactorModule( module, spun ).generators;
true
gap> AxeInducedActionFactorModule( module, [] ).generators = module.generators;
true

# the dual, also of more than two generators and over each field
gap> random := function( q, number )
>   return GModuleByMats( List( [ 1 .. number ], i -> RandomInvertibleMat( 9, GF( q ) ) ), GF( q ) );
> end;;
gap> orders := [ 2, 3, 4, 5, 7, 8, 9 ];;
gap> modules := Concatenation( List( orders, q -> List( [ 1, 3, 16 ], number -> random( q, number ) ) ) );;
gap> ForAll( modules, m -> AxeDualModule( m ).generators = DualGModule( m ).generators );
true
gap> spun_by_both := function( module )
>   local row;
>   row := module.generators[ 1 ][ 1 ];
>   return AxeSpinnedBasis( row, module ) = TriangulizedMat( MTX.SpinnedBasis( row, module.generators, module.field ) );
> end;;
gap> ForAll( modules, spun_by_both );
true

# more than the program takes
gap> AxeDualModule( random( 2, 17 ) ).dimension;
9
gap> AxeSpinnedBasis( IdentityMat( 9, GF( 2 ) ), random( 2, 17 ) );
Error, error: invalid value '17' for '-g <N>': 17 is not in 1..=16

#
gap> STOP_TEST( "modules.tst" );
