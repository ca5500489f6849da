# Matrices there and back over each field, and what is computed of them beside what GAP computes.
gap> START_TEST( "matrices.tst" );
gap> orders := [ 2, 3, 4, 5, 7, 8, 9 ];;
gap> folder := Filename( DirectoryTemporary(), "" );;
gap> file := Concatenation( folder, "matrix" );;

# each element of each field, by its number
gap> ForAll( orders, q -> AXE_Elements( q ){ [ 1, 2 ] } = [ Zero( GF( q ) ), One( GF( q ) ) ] );
true
gap> ForAll( orders, q -> Set( AXE_Elements( q ) ) = Set( GF( q ) ) );
true
gap> List( [ 4, 8, 9 ], q -> Position( AXE_Elements( q ), Z( q ) ) - 1 );
[ 2, 2, 3 ]

# the bytes are those that FORMATS.md tells
gap> AxeWriteMatrix( file, [ [ 1, 1 ], [ 0, 1 ] ] * Z( 2 ), GF( 2 ) );
gap> INTLIST_STRING( StringFile( file ), 1 );
[ 65, 88, 80, 49, 2, 0, 0, 0, 2, 0, 0, 0, 2, 0, 0, 0, 192, 64 ]

# what is written is what is read, narrow and wide; and a screen of few columns changes nothing
gap> there_and_back := function( q, rows, columns )
>   local matrix;
>   matrix := RandomMat( rows, columns, GF( q ) );
>   AxeWriteMatrix( file, matrix, GF( q ) );
>   return AxeReadMatrix( file ) = matrix;
> end;;
gap> shapes := [ [ 1, 1 ], [ 3, 5 ], [ 5, 3 ], [ 2, 79 ], [ 2, 80 ], [ 2, 81 ], [ 7, 300 ], [ 300, 7 ],
>   [ 1, 2048 ], [ 1, 4096 ], [ 40, 56 ], [ 40, 57 ] ];;
gap> ForAll( orders, q -> ForAll( shapes, shape -> there_and_back( q, shape[ 1 ], shape[ 2 ] ) ) );
true
gap> size := SizeScreen();; SizeScreen( [ 40 ] );;
gap> ForAll( orders, q -> there_and_back( q, 3, 200 ) );
true
gap> SizeScreen( size );;

# matrices without rows
gap> AxeWriteMatrix( file, [], GF( 3 ), 11 );
gap> AxeReadMatrix( file );
[  ]
gap> AxeWriteMatrix( file, [], GF( 3 ) );
Error, of a matrix without rows the number of columns has to be told

# a matrix over a smaller field is one over the larger, but not the other way round
gap> AxeWriteMatrix( file, IdentityMat( 3, GF( 3 ) ), GF( 9 ) );
gap> DefaultFieldOfMatrix( AxeReadMatrix( file ) );
GF(3^2)
gap> AxeWriteMatrix( file, [ [ 1, 2 ], [ 3, 4 ] ], GF( 5 ) );
Error, this is no matrix with 2 columns over the field of 5 elements
gap> AxeWriteMatrix( file, [ [ 1, 2 ], [ 3 ] ] * Z( 5 ), GF( 5 ) );
Error, this is no matrix with 2 columns over the field of 5 elements
gap> AxeWriteMatrix( file, IdentityMat( 2, GF( 11 ) ), GF( 11 ) );
Error, axe knows the fields of order 2, 3, 4, 5, 7, 8 and 9, and no others

# files that are none
gap> is_refused := function( text )
>   FileString( file, text );
>   return AXE_Unpacked( StringFile( file ) ) = fail;
> end;;
gap> AxeWriteMatrix( file, IdentityMat( 3, GF( 3 ) ), GF( 3 ) );
gap> sound := StringFile( file );;
gap> is_refused( sound );
false
gap> ForAll( [ 0 .. Length( sound ) - 1 ], i -> is_refused( sound{ [ 1 .. i ] } ) );
true
gap> is_refused( Concatenation( sound, "x" ) );
true
gap> is_refused_changed := function( at, byte )
>   local text;
>   text := ShallowCopy( sound );
>   text[ at ] := CHAR_INT( byte );
>   return is_refused( text );
> end;;
gap> changes := [ [ 1, 66 ], [ 5, 6 ], [ 6, 1 ], [ 9, 4 ], [ 13, 0 ], [ 17, 243 ], [ 17, 1 ] ];;
gap> List( changes, change -> CallFuncList( is_refused_changed, change ) );
[ true, true, true, true, true, true, true ]

# products, inverses and null spaces
gap> agree := function( q )
>   local field, a, b, half;
>   field := GF( q );
>   a := RandomInvertibleMat( 20, field );
>   b := RandomMat( 20, 90, field );
>   half := RandomMat( 20, 10, field ) * RandomMat( 10, 20, field );
>   return [ AxeProduct( a, b ) = a * b, AxeInverse( a ) = a ^ -1,
>     AxeNullspaceMat( half ) = TriangulizedMat( NullspaceMat( half ) ), AxeNullspaceMat( a ) = [] ];
> end;;
gap> Set( Concatenation( List( orders, agree ) ) );
[ true ]
gap> AxeProduct( [], IdentityMat( 2, GF( 3 ) ) );
[  ]
gap> AxeProduct( IdentityMat( 2, GF( 4 ) ) * Z( 4 ), IdentityMat( 2, GF( 2 ) ) ) = IdentityMat( 2, GF( 4 ) ) * Z( 4 );
true
gap> DefaultFieldOfMatrix( AxeInverse( IdentityMat( 2, GF( 2 ) ), GF( 8 ) ) );
GF(2^3)

#
gap> STOP_TEST( "matrices.tst" );
