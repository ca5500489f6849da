#############################################################################
##
##  files.gi: matrices, modules and reports in files
##

# the bytes of a file; an error where there is none
BindGlobal( "AXE_BytesOfFile", function( file )
  local bytes;
  bytes := fail;
  if IsReadableFile( file ) = true and not IsDirectoryPath( file ) = true then bytes := StringFile( file ); fi;
  if bytes = fail then ErrorNoReturn( "there is no file ", file, " to be read" ); fi;
  return bytes;
end );

# the field and the matrix of a packed file
BindGlobal( "AXE_ReadPair", function( file )
  local found;
  found := AXE_Unpacked( AXE_BytesOfFile( file ) );
  if found = fail then ErrorNoReturn( file, " is no packed file of axe: `axe zcv` makes one of a text" ); fi;
  return found;
end );

# The file of a generator of a module
BindGlobal( "AXE_GeneratorFile", { name, number } -> Concatenation( name, ".", String( number ) ) );

# What the name of a module that is kept in one file ends with
BindGlobal( "AXE_Ending", ".axm" );

# The name of a module as its parts: that by which the program knows it, and the ending where it is kept in one file,
# else the empty string. Files beside a module are named after the first part, and its constituents are kept as it is.
BindGlobal( "AXE_PartsOfName", function( name )
  local length;
  length := Length( name ) - Length( AXE_Ending );
  if EndsWith( name, AXE_Ending ) then return [ name{ [ 1 .. length ] }, AXE_Ending ]; fi;
  return [ name, "" ];
end );

# A file as a pair of its name and its bytes: that of a matrix of so many columns
BindGlobal( "AXE_MatrixFile", { name, matrix, field, columns } -> [ name, AXE_Packed( matrix, field, columns ) ] );

# and those of a module of this name
BindGlobal( "AXE_ModuleFiles", function( name, module )
  if not MTX.IsMTXModule( module ) then ErrorNoReturn( "this is no module, as GModuleByMats makes them" ); fi;
  if EndsWith( name, AXE_Ending ) then return [ [ name, AXE_PackedModule( module ) ] ]; fi;
  return List( [ 1 .. Length( module.generators ) ],
    i -> AXE_MatrixFile( AXE_GeneratorFile( name, i ), module.generators[ i ], module.field, module.dimension ) );
end );

# writes such files; an error where that can't be
BindGlobal( "AXE_WriteFiles", function( files )
  local file;
  for file in files do
    if FileString( file[ 1 ], file[ 2 ] ) = fail then ErrorNoReturn( file[ 1 ], " can't be written" ); fi;
  od;
end );

InstallGlobalFunction( AxeWriteMatrix, function( file, matrix, field, columns... )
  if Length( matrix ) > 0 then columns := [ Length( matrix[ 1 ] ) ]; fi;
  if columns = [] then ErrorNoReturn( "of a matrix without rows the number of columns has to be told" ); fi;
  AXE_WriteFiles( [ AXE_MatrixFile( file, matrix, field, columns[ 1 ] ) ] );
end );

InstallGlobalFunction( AxeReadMatrix, file -> AXE_ReadPair( file )[ 2 ] );

InstallGlobalFunction( AxeWriteModule, function( name, module )
  AXE_WriteFiles( AXE_ModuleFiles( name, module ) );
end );

# the module of a file that has all its generators
BindGlobal( "AXE_ReadModuleFile", function( file )
  local found;
  found := AXE_UnpackedModule( AXE_BytesOfFile( file ) );
  if found = fail then ErrorNoReturn( file, " is no packed module of axe: `axe zcv -m` makes one of texts" ); fi;
  return found;
end );

InstallGlobalFunction( AxeReadModule, function( name, number... )
  local found;
  if EndsWith( name, AXE_Ending ) then return AXE_ReadModuleFile( name ); fi;
  if number = [] then
    number := [ 1 ];
    while IsExistingFile( AXE_GeneratorFile( name, number[ 1 ] + 1 ) ) do number[ 1 ] := number[ 1 ] + 1; od;
  fi;
  found := List( [ 1 .. number[ 1 ] ], i -> AXE_ReadPair( AXE_GeneratorFile( name, i ) ) );
  if Length( Set( found, pair -> Size( pair[ 1 ] ) ) ) > 1 then
    ErrorNoReturn( "the generators of ", name, " are over different fields" );
  fi;
  return GModuleByMats( List( found, pair -> pair[ 2 ] ), found[ 1 ][ 1 ] );
end );

# the number after a word such as dim=, or `fail`
BindGlobal( "AXE_NumberAfter", function( word, text )
  if not StartsWith( text, word ) then return fail; fi;
  return Int( text{ [ Length( word ) + 1 .. Length( text ) ] } );
end );

# the line of a factor: from version 2 on it ends with the word, and the polynomial where there is one, by which the
# factor was seen to be irreducible
BindGlobal( "AXE_FactorLine", function( report, i )
  local line;
  line := StringFormatted( "factor {} dim={} mult={}", report.names[ i ], report.dimensions[ i ],
    report.multiplicities[ i ] );
  if report.version = 2 then Append( line, StringFormatted( " word={}", report.witnesses[ i ].word ) ); fi;
  if report.version = 2 and report.witnesses[ i ].poly <> fail then
    Append( line, Concatenation( " poly=", report.witnesses[ i ].poly ) );
  fi;
  return Concatenation( line, "\n" );
end );

# the text of a report, from what AxeReadReport answers
BindGlobal( "AXE_TextOfReport", function( report )
  local text, i;
  text := StringFormatted( "chop {} field={} dim={} gens={} seed={} words={}\n", report.version, Size( report.field ),
    report.dimension, report.generators, report.seed, report.words );
  for i in [ 1 .. Length( report.names ) ] do Append( text, AXE_FactorLine( report, i ) ); od;
  Append( text, "series" );
  for i in report.series do Append( text, Concatenation( " ", report.names[ i ] ) ); od;
  Append( text, "\n" );
  return text;
end );

# what the words of a factor's line say after its multiplicity: the number of the word, and the digits of the polynomial
# or `fail`
BindGlobal( "AXE_Witness", function( words )
  local poly;
  poly := fail;
  if Length( words ) = 6 and StartsWith( words[ 6 ], "poly=" ) then
    poly := words[ 6 ]{ [ 6 .. Length( words[ 6 ] ) ] };
  fi;
  if Length( words ) < 5 then return rec( word := fail, poly := poly ); fi;
  return rec( word := AXE_NumberAfter( "word=", words[ 5 ] ), poly := poly );
end );

# whether a witness of a factor is one of a report with this field and number of words: the number of a word, and digits
# of a monic polynomial of positive degree d with q^d at most 4096
BindGlobal( "AXE_IsWitness", function( witness, q, words )
  local digits;
  if not witness.word in [ 0 .. words ] then return false; fi;
  if witness.poly = fail then return true; fi;
  digits := List( witness.poly, digit -> Position( "012345678", digit ) );
  return Length( digits ) > 1 and q ^ ( Length( digits ) - 1 ) <= 4096 and not fail in digits
    and ForAll( digits, digit -> digit <= q ) and Last( digits ) = 2;
end );

# The report that the lines of a text name, or `fail` where a number or a name is missing. Whether they are just those
# of a report shows by writing it anew.
BindGlobal( "AXE_ReportOfLines", function( lines )
  local head, labels, numbers, factors, series, q, place, version, wanted;
  head := SplitString( lines[ 1 ], " " );
  factors := List( lines{ [ 2 .. Length( lines ) - 1 ] }, line -> SplitString( line, " " ) );
  series := SplitString( lines[ Length( lines ) ], " " );
  if Length( head ) <> 7 or not head[ 2 ] in [ "1", "2" ] then return fail; fi;
  version := Int( head[ 2 ] );
  wanted := [ [ 4 ], [ 5, 6 ] ][ version ];
  if ForAny( factors, words -> not Length( words ) in wanted ) then return fail; fi;
  labels := [ "field=", "dim=", "gens=", "seed=", "words=" ];
  numbers := List( [ 1 .. 5 ], i -> AXE_NumberAfter( labels[ i ], head[ i + 2 ] ) );
  place := name -> PositionProperty( factors, words -> words[ 2 ] = name );
  q := numbers[ 1 ];
  if fail in numbers or not q in [ 2, 3, 4, 5, 7, 8, 9 ] then return fail; fi;
  return rec( version := version, field := GF( q ), dimension := numbers[ 2 ], generators := numbers[ 3 ],
    seed := numbers[ 4 ], words := numbers[ 5 ], names := List( factors, words -> words[ 2 ] ),
    dimensions := List( factors, words -> AXE_NumberAfter( "dim=", words[ 3 ] ) ),
    multiplicities := List( factors, words -> AXE_NumberAfter( "mult=", words[ 4 ] ) ),
    witnesses := List( factors, AXE_Witness ), series := List( series{ [ 2 .. Length( series ) ] }, place ) );
end );

# what the text of a report says, or `fail` where it is none: each report has one spelling
BindGlobal( "AXE_ReportOfText", function( text )
  local lines, report;
  lines := SplitString( text, "\n" );
  if Length( lines ) < 3 then return fail; fi;
  report := AXE_ReportOfLines( lines );
  if report = fail or fail in Concatenation( report.dimensions, report.multiplicities, report.series )
    or report.version = 2
      and ForAny( report.witnesses, witness -> not AXE_IsWitness( witness, Size( report.field ), report.words ) )
    or AXE_TextOfReport( report ) <> text or report.multiplicities * report.dimensions <> report.dimension
    or ForAny( [ 1 .. Length( report.names ) ], i -> Number( report.series, j -> j = i ) <> report.multiplicities[ i ] )
    then return fail; fi;
  return report;
end );

InstallGlobalFunction( AxeReadReport, function( file )
  local report;
  report := AXE_ReportOfText( AXE_BytesOfFile( file ) );
  if report = fail then ErrorNoReturn( file, " is no report of axe chop" ); fi;
  return report;
end );
