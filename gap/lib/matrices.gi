#############################################################################
##
##  matrices.gi: products, inverses and null spaces
##

# The field that is told, or the least that has all entries of these matrices
BindGlobal( "AXE_FieldOf", function( matrices, told )
  local fields;
  if told <> [] then return told[ 1 ]; fi;
  fields := List( Filtered( matrices, matrix -> Length( matrix ) > 0 ), DefaultFieldOfMatrix );
  if fields = [] or fail in fields then ErrorNoReturn( "the field has to be told" ); fi;
  if Length( Set( fields, Characteristic ) ) > 1 then
    ErrorNoReturn( "the matrices are over fields of different characteristic" );
  fi;
  return GF( Characteristic( fields[ 1 ] ), Lcm( List( fields, DegreeOverPrimeField ) ) );
end );

# how many columns a matrix has, and `otherwise` if it has no rows
BindGlobal( "AXE_Columns", function( matrix, otherwise )
  if Length( matrix ) = 0 then return otherwise; fi;
  return Length( matrix[ 1 ] );
end );

InstallGlobalFunction( AxeProduct, function( left, right, field... )
  field := AXE_FieldOf( [ left, right ], field );
  return AXE_Run( [ AXE_MatrixFile( "left", left, field, AXE_Columns( left, Maximum( 1, Length( right ) ) ) ),
    AXE_MatrixFile( "right", right, field, AXE_Columns( right, 1 ) ) ],
    [ "axe zmu left right product" ], folder -> AxeReadMatrix( Concatenation( folder, "product" ) ) );
end );

# runs one command line on the file `matrix`, which writes the file `answer`
BindGlobal( "AXE_OfMatrix", function( matrix, field, line )
  return AXE_Run( [ AXE_MatrixFile( "matrix", matrix, AXE_FieldOf( [ matrix ], field ), AXE_Columns( matrix, 1 ) ) ],
    [ line ], folder -> AxeReadMatrix( Concatenation( folder, "answer" ) ) );
end );

InstallGlobalFunction( AxeInverse,
  { matrix, field... } -> AXE_OfMatrix( matrix, field, "axe ziv matrix answer" ) );

InstallGlobalFunction( AxeNullspaceMat,
  { matrix, field... } -> AXE_OfMatrix( matrix, field, "axe znu matrix answer" ) );
