# Modules and series in files, as the program has them on a command line.
gap> START_TEST( "files.tst" );
gap> folder := Filename( DirectoryTemporary(), "" );;
gap> at := name -> Concatenation( folder, name );;
gap> shell := line -> Process( Directory( folder ), "/bin/sh", InputTextNone(), OutputTextNone(), [ "-c", line ] );;

# as many generators as there are
gap> group := Group( (1,2), (1,2,3), (1,4)(2,5)(3,6), (1,4,7,10)(2,5,8,11)(3,6,9,12) );;
gap> module := AxePermutationModule( group, GF( 3 ) );;
gap> AxeWriteModule( at( "wreath" ), module );
gap> Length( module.generators );
4
gap> AxeReadModule( at( "wreath" ) ) = module;
true
gap> AxeReadModule( at( "wreath" ), 3 ).generators = module.generators{ [ 1 .. 3 ] };
true
gap> AxeReadModule( "no_such_folder/wreath", 5 );
Error, there is no file no_such_folder/wreath.1 to be read
gap> AxeReadMatrix( "/" );
Error, there is no file / to be read
gap> AxeWriteMatrix( "no_such_folder/matrix", IdentityMat( 2, GF( 2 ) ), GF( 2 ) );
Error, no_such_folder/matrix can't be written

# all generators in one file, whose bytes are those that FORMATS.md tells
gap> AxeWriteModule( at( "one.axm" ), GModuleByMats( [ [ [ 0, 1 ], [ 1, 1 ] ] * Z( 2 ) ], GF( 2 ) ) );
gap> INTLIST_STRING( StringFile( at( "one.axm" ) ), 1 );
[ 65, 88, 80, 50, 2, 1, 0, 0, 2, 0, 0, 0, 0, 0, 0, 0, 64, 192 ]
gap> AxeWriteModule( at( "wreath.axm" ), module );
gap> AxeReadModule( at( "wreath.axm" ) ) = module;
true
gap> random := function( q, number, size )
>   return GModuleByMats( List( [ 1 .. number ], i -> RandomMat( size, size, GF( q ) ) ), GF( q ) );
> end;;
gap> there_and_back := function( module )
>   AxeWriteModule( at( "random.axm" ), module );
>   return AxeReadModule( at( "random.axm" ) ) = module;
> end;;
gap> shapes := [ [ 1, 1 ], [ 1, 17 ], [ 2, 40 ], [ 16, 9 ], [ 3, 81 ] ];;
gap> ForAll( [ 2, 3, 4, 5, 7, 8, 9 ],
>   q -> ForAll( shapes, shape -> there_and_back( random( q, shape[ 1 ], shape[ 2 ] ) ) ) );
true

# they are those that the program makes of texts
gap> AxeWriteModule( at( "three" ), random( 9, 3, 5 ) );
gap> shell( "for i in 1 2 3; do axe zpr three.$i text.$i; done; axe zcv -m -g 3 text three.axm" );
0
gap> AxeReadModule( at( "three.axm" ) ) = AxeReadModule( at( "three" ) );
true

# what is no module in one file: each beginning of one, a matrix, and changed bytes
gap> sound := StringFile( at( "one.axm" ) );;
gap> is_refused := text -> AXE_UnpackedModule( text ) = fail;;
gap> is_refused( sound );
false
gap> ForAll( [ 0 .. Length( sound ) - 1 ], i -> is_refused( sound{ [ 1 .. i ] } ) );
true
gap> is_refused( Concatenation( sound, "x" ) );
true
gap> is_refused_changed := function( at, byte )
>   local text;
>   text := ShallowCopy( sound );
>   text[ at ] := CHAR_INT( byte );
>   return is_refused( text );
> end;;
gap> changes := [ [ 4, 49 ], [ 5, 6 ], [ 5, 3 ], [ 6, 0 ], [ 6, 2 ], [ 6, 17 ], [ 7, 1 ], [ 9, 0 ], [ 10, 17 ],
>   [ 13, 1 ], [ 17, 1 ] ];;
gap> Set( changes, change -> CallFuncList( is_refused_changed, change ) );
[ true ]
gap> AxeReadModule( "/no_such.axm" );
Error, there is no file /no_such.axm to be read
gap> FileString( at( "none.axm" ), StringFile( at( "wreath.1" ) ) );;
gap> AXE_UnpackedModule( StringFile( at( "none.axm" ) ) );
fail
gap> AXE_Unpacked( StringFile( at( "wreath.axm" ) ) );
fail

# what the program wrote, with all generators of each constituent
gap> shell( "axe chop -g 4 wreath >shown" );
0
gap> series := AxeReadSeries( at( "wreath" ) );;
gap> Set( series.factors, factor -> Length( factor.generators ) );
[ 4 ]
gap> series = AxeChop( module );
true
gap> AXE_TextOfReport( AxeReadReport( at( "wreath.rep" ) ) ) = StringFile( at( "shown" ) );
true
gap> shell( "mkdir whole && cp wreath.axm whole && cd whole && axe chop -m wreath && [ ! -e wreath1a.1 ]" );
0
gap> AxeReadSeries( at( "whole/wreath.axm" ) ) = series;
true

# a series that is written is the one that is read, and the program verifies it
gap> for name in [ "again", "again.axm" ] do
>   AxeWriteModule( at( name ), module );
>   AxeWriteSeries( at( name ), series );
> od;
gap> ForAll( [ "again", "again.axm" ], name -> AxeReadSeries( at( name ) ) = series );
true
gap> shell( "axe verify again && axe verify -m again && cmp again.rep wreath.rep && cmp again.bas wreath.bas" );
0
gap> List( [ "wreath", "again", "again.axm" ], name -> AxeVerify( at( name ) ) );
[ true, true, true ]
gap> shell( "cp wreath.bas again.axm && rm again.rep" );
0
gap> AxeVerify( at( "again" ) );
Error, axe: again.rep: Missing
gap> shell( "cp wreath.rep again.rep && cp wreath.1 again.bas" );
0
gap> AxeVerify( at( "again" ) );
false
gap> AxeVerify( at( "again.axm" ) );
Error, axe: again.axm: BadMagic
gap> AxeVerify( "no_such_folder/again" );
Error, there is no folder no_such_folder/

# what is no report: each beginning of one, and changed ones
gap> text := StringFile( at( "shown" ) );;
gap> AXE_ReportOfText( text ) = AxeReadReport( at( "wreath.rep" ) );
true
gap> ForAny( [ 0 .. Length( text ) - 1 ], i -> AXE_ReportOfText( text{ [ 1 .. i ] } ) <> fail );
false
gap> AXE_ReportOfText( Concatenation( text, "\n" ) );
fail
gap> changes := [ [ "dim=12", "dim=13" ], [ "field=3", "field=6" ], [ "mult=", "mult= " ], [ "seed=1", "seed=01" ],
>   [ "series ", "series  " ] ];;
gap> List( changes, change -> AXE_ReportOfText( ReplacedString( text, change[ 1 ], change[ 2 ] ) ) );
[ fail, fail, fail, fail, fail ]

# both versions, and what is neither: words and polynomials are those of a report of version 2
gap> of := { version, one, other } -> AXE_ReportOfText( Concatenation( "chop ", version,
>   " field=3 dim=3 gens=2 seed=1 words=400\nfactor 2a dim=2 mult=1", one, "\nfactor 1a dim=1 mult=1", other,
>   "\nseries 2a 1a\n" ) );;
gap> of( "1", "", "" ).version;
1
gap> of( "2", " word=400 poly=21", " word=0" ).witnesses;
[ rec( poly := "21", word := 400 ), rec( poly := fail, word := 0 ) ]
gap> of( "2", " word=0 poly=00000001", " word=0" ).witnesses[ 1 ].poly;
"00000001"
gap> Set( [ of( "1", " word=0", " word=0" ), of( "2", "", "" ), of( "2", " word=0", "" ), of( "3", "", "" ) ] );
[ fail ]
gap> Set( [ "401", "-1", "01", "", "x" ], word -> of( "2", Concatenation( " word=", word ), " word=0" ) );
[ fail ]
gap> Set( [ "1", "", "31", "x1", "12", "10", "000000001" ], poly -> of( "2", Concatenation( " word=0 poly=", poly ), " word=0" ) );
[ fail ]

# nor is a matrix
gap> FileString( at( "text" ), "1 2 1 1\n1\n" );;
gap> AXE_ReportOfText( StringFile( at( "text" ) ) );
fail

#
gap> STOP_TEST( "files.tst" );
