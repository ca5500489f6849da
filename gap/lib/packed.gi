#############################################################################
##
##  packed.gi: matrices and modules as the bytes of packed files, and back
##
##  A row is bytes, each of which is a number with some digits in base q, the entries as axe numbers them, the first
##  the most significant. The row's last byte is filled up with digits 0. All is done by operations on whole lists,
##  which the kernel does.
##
##  Files go packed both ways. At 1,000 rows GAP takes 0.03 to 0.15 seconds to write one and 0.05 to 0.1 to read it. A
##  text takes it 0.07 to 0.3 to be written (less than packed over 5 and 7 elements, up to 2.5 times as much over the
##  others), and a little less to be read; and then the program has to convert it.
##

# the orders of the fields that axe knows
BindGlobal( "AXE_Orders", [ 2, 3, 4, 5, 7, 8, 9 ] );

# the elements of the field of order q, by the numbers that axe has for them
BindGlobal( "AXE_Elements", function( q )
  local field, prime, degree;
  field := GF( q );
  prime := Characteristic( field );
  degree := DegreeOverPrimeField( field );
  return List( [ 0 .. q - 1 ], number -> Sum( [ 0 .. degree - 1 ],
    i -> QuoInt( number, prime ^ i ) * Z( q ) ^ i, Zero( field ) ) );
end );

# how many entries a byte has: as many as numbers below 257 have digits in base q
BindGlobal( "AXE_EntriesOfByte", q -> LogInt( 256, q ) );

# The rows of a matrix, compressed over the field; an error where they are no rows of equally many elements of it.
BindGlobal( "AXE_Rows", function( matrix, field, columns )
  local q, rows, fits;
  q := Size( field );
  if not q in AXE_Orders then
    ErrorNoReturn( "axe knows the fields of order 2, 3, 4, 5, 7, 8 and 9, and no others" );
  fi;
  if Length( matrix ) = 0 then return []; fi;
  rows := ImmutableMatrix( field, matrix );
  fits := row -> Length( row ) = columns
    and ( q = 2 and IsGF2VectorRep( row ) or q > 2 and Is8BitVectorRep( row ) and Q_VEC8BIT( row ) = q );
  if not ForAll( rows, fits ) then
    ErrorNoReturn( "this is no matrix with ", columns, " columns over the field of ", q, " elements" );
  fi;
  return rows;
end );

# The bytes of rows over the field of q elements. GAP numbers a vector by its digits in base q, where the elements are
# sorted, and an integer below 2^60 is a small one: so the rows are cut into parts of as many bytes as such a number
# has. The numbers of all parts then give all their last bytes, and so on up to their first ones, and each byte is
# turned into that of axe's numbers.
BindGlobal( "AXE_BytesOfRows", function( rows, q, columns )
  local entries, base, elements, digits, table, count, length, starts, filled, numbers, row, start, bytes, low, place,
    kept;
  entries := AXE_EntriesOfByte( q );
  base := q ^ entries;
  elements := AXE_Elements( q );
  digits := List( Set( elements ), element -> Position( elements, element ) - 1 );
  table := List( [ 0 .. base - 1 ], number ->
    Sum( [ 0 .. entries - 1 ], i -> digits[ QuoInt( number, q ^ i ) mod q + 1 ] * q ^ i ) );
  count := QuoInt( LogInt( 2 ^ 60 - 1, q ), entries );
  length := count * entries;
  starts := [ 0 .. QuoInt( columns - 1, length ) ] * length;
  filled := q ^ ( starts[ Length( starts ) ] + length - columns );
  numbers := [];
  for row in rows do
    for start in starts do
      Add( numbers, NumberFFVector( row{ [ start + 1 .. Minimum( columns, start + length ) ] }, q ) );
    od;
    numbers[ Length( numbers ) ] := numbers[ Length( numbers ) ] * filled;
  od;
  bytes := 0 * [ 1 .. count * Length( numbers ) ];
  for place in [ count, count - 1 .. 1 ] do
    low := numbers mod base;
    bytes{ [ 0 .. Length( numbers ) - 1 ] * count + place } := table{ low + 1 };
    numbers := ( numbers - low ) / base;
  od;
  kept := [ 1 .. QuoInt( columns + entries - 1, entries ) ];
  return Concatenation( List( [ 0 .. Length( rows ) - 1 ], i -> bytes{ i * count * Length( starts ) + kept } ) );
end );

BindGlobal( "AXE_LowByteFirst", number -> List( [ 0 .. 3 ], i -> QuoInt( number, 256 ^ i ) mod 256 ) );

# the bytes of a packed file, as a string
BindGlobal( "AXE_Packed", function( matrix, field, columns )
  local rows, q, bytes;
  rows := AXE_Rows( matrix, field, columns );
  q := Size( field );
  bytes := Concatenation( [ q, 0, 0, 0 ], AXE_LowByteFirst( Length( rows ) ), AXE_LowByteFirst( columns ) );
  if Length( rows ) > 0 then Append( bytes, AXE_BytesOfRows( rows, q, columns ) ); fi;
  return Concatenation( "AXP1", STRING_SINTLIST( bytes ) );
end );

# the bytes of a packed file of a whole module, as a string
BindGlobal( "AXE_PackedModule", function( module )
  local q, number, bytes, generator, rows;
  q := Size( module.field );
  number := Length( module.generators );
  if not number in [ 1 .. 16 ] then ErrorNoReturn( "axe takes modules of 1 to 16 generators" ); fi;
  bytes := Concatenation( [ q, number, 0, 0 ], AXE_LowByteFirst( module.dimension ), [ 0, 0, 0, 0 ] );
  for generator in module.generators do
    rows := AXE_Rows( generator, module.field, module.dimension );
    if Length( rows ) > 0 then Append( bytes, AXE_BytesOfRows( rows, q, module.dimension ) ); fi;
  od;
  return Concatenation( "AXP2", STRING_SINTLIST( bytes ) );
end );

# the rows of the bytes after a header, or `fail`
BindGlobal( "AXE_RowsOfBytes", function( bytes, q, rows, columns )
  local entries, base, width, elements, all, count, place, table, parts;
  entries := AXE_EntriesOfByte( q );
  base := q ^ entries;
  width := QuoInt( columns + entries - 1, entries );
  table := List( [ 0 .. 255 ], byte -> byte < base );
  if Length( bytes ) <> rows * width or false in table{ bytes + 1 } then return fail; fi;
  if rows = 0 then return []; fi;
  elements := AXE_Elements( q );
  count := entries * Length( bytes );
  all := ListWithIdenticalEntries( count, 0 );
  for place in [ 1 .. entries ] do
    table := List( [ 0 .. base - 1 ], byte -> elements[ QuoInt( byte, q ^ ( entries - place ) ) mod q + 1 ] );
    all{ [ place, place + entries .. count - entries + place ] } := table{ bytes + 1 };
  od;
  parts := [ 0, width * entries .. ( rows - 1 ) * width * entries ];
  if not ForAll( parts, i -> ForAll( all{ [ i + columns + 1 .. i + width * entries ] }, IsZero ) ) then return fail; fi;
  return List( parts, i -> all{ [ i + 1 .. i + columns ] } );
end );

# What the header of a packed file says, or `fail` where this is none with these four letters: the order of the field,
# the byte after it, and the two numbers.
BindGlobal( "AXE_HeaderOf", function( text, letters )
  local bytes, number;
  if Length( text ) < 16 or text{ [ 1 .. 4 ] } <> letters then return fail; fi;
  bytes := INTLIST_STRING( text{ [ 5 .. 16 ] }, 1 );
  number := at -> Sum( [ 0 .. 3 ], i -> bytes[ at + i ] * 256 ^ i );
  if not bytes[ 1 ] in AXE_Orders or bytes{ [ 3, 4 ] } <> [ 0, 0 ] then return fail; fi;
  return [ bytes[ 1 ], bytes[ 2 ], number( 5 ), number( 9 ) ];
end );

# the matrix of a packed file's bytes as a pair of its field and itself, or `fail` where they are none
BindGlobal( "AXE_Unpacked", function( text )
  local header, found;
  header := AXE_HeaderOf( text, "AXP1" );
  if header = fail or header[ 2 ] <> 0 or header[ 4 ] = 0 then return fail; fi;
  found := INTLIST_STRING( text{ [ 17 .. Length( text ) ] }, 1 );
  found := AXE_RowsOfBytes( found, header[ 1 ], header[ 3 ], header[ 4 ] );
  if found = fail then return fail; fi;
  if header[ 3 ] > 0 then found := ImmutableMatrix( GF( header[ 1 ] ), found ); fi;
  return [ GF( header[ 1 ] ), found ];
end );

# the module of the bytes of a packed file of a whole module, or `fail` where they are none
BindGlobal( "AXE_UnpackedModule", function( text )
  local header, q, size, length, starts, found;
  header := AXE_HeaderOf( text, "AXP2" );
  if header = fail or not header[ 2 ] in [ 1 .. 16 ] or not header[ 3 ] in [ 1 .. 4096 ] or header[ 4 ] <> 0 then
    return fail;
  fi;
  q := header[ 1 ];
  size := header[ 3 ];
  length := QuoInt( size + AXE_EntriesOfByte( q ) - 1, AXE_EntriesOfByte( q ) ) * size;
  if Length( text ) <> 16 + header[ 2 ] * length then return fail; fi;
  starts := 16 + [ 0 .. header[ 2 ] - 1 ] * length;
  found := List( starts, i -> AXE_RowsOfBytes( INTLIST_STRING( text{ [ i + 1 .. i + length ] }, 1 ), q, size, size ) );
  if fail in found then return fail; fi;
  return GModuleByMats( List( found, rows -> ImmutableMatrix( GF( q ), rows ) ), GF( q ) );
end );
