# What can't be decided, faults, and what calls leave behind.
gap> START_TEST( "faults.tst" );

# a section that no word decides is `fail`: 8,192 matrices commute with the generator
gap> polynomial := ConwayPolynomial( 2, 13 );;
gap> companion := GModuleByMats( [ CompanionMat( polynomial ) ], GF( 2 ) );;
gap> AxeChop( companion );
fail
gap> AxeCompositionFactors( companion : words := 0 );
fail
gap> AxeIsIrreducible( companion );
fail
gap> MTX.HasIsIrreducible( companion );
false

# another fault is an error, with the line that axe printed
gap> zero := [ [ 0, 0 ], [ 0, 0 ] ] * Z( 3 );;
gap> AxeInverse( zero );
Error, axe: Singular
gap> AxeProduct( zero, IdentityMat( 3, GF( 3 ) ) );
Error, axe: ShapesDiffer
gap> AxeProduct( zero, IdentityMat( 2, GF( 2 ) ) );
Error, the matrices are over fields of different characteristic
gap> AxeNullspaceMat( [], GF( 3 ) );
Error, axe: NoRows
gap> AxeNullspaceMat( [] );
Error, the field has to be told
gap> module := AxePermutationModule( [ (1,2), (1,2,3) ], GF( 2 ) );;
gap> AxeInducedActionFactorModule( module, [ 1, 0, 0 ] * Z( 2 ) );
Error, axe: NotInvariant
gap> AxeInducedActionFactorModule( module, IdentityMat( 3, GF( 2 ) ) );
Error, axe: WholeSpace
gap> AxeSpinnedBasis( [ 0, 0, 0 ] * Z( 2 ), module );
Error, axe: ZeroSeed
gap> AxeDualModule( GModuleByMats( [ zero ], GF( 3 ) ) );
Error, axe: Singular
gap> AxeProduct( List( [ 1 .. 4097 ], i -> [ Z( 2 ) ] ), [ [ Z( 2 ) ] ] );
Error, axe: left: BadRows
gap> AxeChop( rec( generators := [] ) );
Error, this is no module, as GModuleByMats makes them
gap> AxeChop( GModuleByMats( List( [ 1 .. 17 ], i -> IdentityMat( 2, GF( 2 ) ) ), GF( 2 ) ) );
Error, axe takes modules of 1 to 16 generators
gap> AxeChop( GModuleByMats( [], 2, GF( 2 ) ) ).multiplicities;
[ 2 ]
gap> AxeChop( module : seed := -1 );
Error, error: unexpected argument '-1' found
gap> ResetOptionsStack();

# the program can be named, and one that isn't there is told
gap> program := AxeExecutable();;
gap> AxeExecutable( "/nowhere/axe" );
Error, there is no program axe: AxeExecutable( path ) tells where it is
gap> link := Filename( DirectoryTemporary(), "link" );;
gap> Exec( Concatenation( "ln -s '", program, "' ", link ) );
gap> from_here := Concatenation( Concatenation( List( [ 1 .. 40 ], i -> "../" ) ), link{ [ 2 .. Length( link ) ] } );;
gap> AxeExecutable( from_here ) = from_here;
true
gap> AxeInverse( zero );
Error, axe: Singular
gap> AxeExecutable( program ) = program;
true

# the commands that are run, and options that are no number, as the shell has them
gap> SetInfoLevel( InfoAxe, 1 );
gap> AxeIsIrreducible( module : seed := 5 );
#I  axe chop -m --seed '5' module
false
gap> AxeDualModule( module );;
#I  axe ziv module.1 inverse
#I  axe ztr inverse dual.1
#I  axe ziv module.2 inverse
#I  axe ztr inverse dual.2
gap> SetInfoLevel( InfoAxe, 0 );
gap> Print( AXE_Option( "seed" : seed := "1'; false; '" ), "\n" );
--seed '1'\''; false; '\'''

# each folder is gone after its call, whatever came of it
gap> kept := ShallowCopy( GAPInfo.DirectoriesTemporary );;
gap> folder := fail;;
gap> AXE_Run( [ AXE_MatrixFile( "matrix", IdentityMat( 2, GF( 2 ) ), GF( 2 ), 2 ) ], [ "axe ziv matrix inverse" ],
>   function( path ) folder := path; return AsSet( DirectoryContents( path ) ); end );
[ ".", "..", "inverse", "matrix", "problem" ]
gap> IsDirectoryPath( folder );
false
gap> AxeInverse( zero );
Error, axe: Singular
gap> AxeChop( companion );
fail
gap> GAPInfo.DirectoriesTemporary = kept;
true

# a thousand calls, and no stream is left open
gap> matrix := [ [ 0, 1 ], [ 1, 1 ] ] * Z( 2 );;
gap> power := matrix;;
gap> for i in [ 1 .. 1000 ] do power := AxeProduct( power, matrix ); od;
gap> power = matrix ^ 1001;
true
gap> file := Filename( DirectoryTemporary(), "matrix" );;
gap> for i in [ 1 .. 1000 ] do AxeWriteMatrix( file, matrix, GF( 2 ) ); AxeReadMatrix( file ); od;

#
gap> STOP_TEST( "faults.tst" );
