#############################################################################
##
##  program.gi: the program axe, run in a folder of its own
##

BindGlobal( "AXE_State", rec( program := fail ) );

InstallGlobalFunction( AxeExecutable, function( path... )
  if path <> [] then AXE_State.program := UserHomeExpand( path[ 1 ] ); fi;
  if AXE_State.program = fail then AXE_State.program := Filename( DirectoriesSystemPrograms(), "axe" ); fi;
  if AXE_State.program = fail or IsExecutableFile( AXE_State.program ) <> true then
    AXE_State.program := fail;
    ErrorNoReturn( "there is no program axe: AxeExecutable( path ) tells where it is" );
  fi;
  return AXE_State.program;
end );

# a word as the shell reads it
BindGlobal( "AXE_Quoted", word -> Concatenation( "'", ReplacedString( word, "'", "'\\''" ), "'" ) );

# A fresh folder, which GAP removes at its end, should an interruption keep AXE_RemoveFolder from it.
BindGlobal( "AXE_NewFolder", function()
  local path;
  path := TmpDirectory();
  if path = fail then ErrorNoReturn( "no temporary folder can be made" ); fi;
  Add( GAPInfo.DirectoriesTemporary, path );
  return path;
end );

BindGlobal( "AXE_RemoveFolder", function( path )
  local at;
  at := Position( GAPInfo.DirectoriesTemporary, path );
  RemoveDirectoryRecursively( ShallowCopy( path ) );
  if at <> fail then Remove( GAPInfo.DirectoriesTemporary, at ); fi;
end );

# what failed, from the status and the lines on standard error
BindGlobal( "AXE_Problem", function( status, printed )
  local lines;
  lines := [];
  if printed <> fail then lines := SplitString( printed, "\n" ); fi;
  if lines <> [] and lines[ 1 ] <> "" then return lines[ 1 ]; fi;
  return Concatenation( "axe ended with status ", String( status ) );
end );

# The beginning of a script that runs in a folder: there `axe` is the program, also where its path is one from here,
# `here` is GAP's own folder, and what is printed on standard error goes to the file `problem`.
BindGlobal( "AXE_Beginning", function( folder )
  return Concatenation( "set -e\nhere=$PWD\nprogram=", AXE_Quoted( AxeExecutable() ), "\n",
    "case $program in /*) ;; *) program=$PWD/$program ;; esac\naxe() { \"$program\" \"$@\"; }\n",
    "cd ", AXE_Quoted( folder ), "\nexec >/dev/null 2>problem\n" );
end );

# a command line, from its words and numbers, of which empty ones are left out
BindGlobal( "AXE_Line", function( words... )
  return JoinStringsWithSeparator( Filtered( List( words, String ), word -> word <> "" ), " " );
end );

# Runs command lines one after another, up to the first that fails, in a fresh folder that holds the files: pairs of a
# name and bytes. Then `take` is given the folder's path with a slash, and what it answers is the answer; or it is
# `fail` where a section stayed undecided, and `false` where a series was not verified. The folder is removed in any case. All
# lines run in one shell, as GAP takes longer to start a process than most of them take.
BindGlobal( "AXE_Run", function( files, lines, take )
  local folder, script, status, printed, result, file, line;
  AxeExecutable();
  folder := AXE_NewFolder();
  script := Concatenation( AXE_Beginning( folder ), JoinStringsWithSeparator( lines, "\n" ) );
  for file in files do FileString( Concatenation( folder, "/", file[ 1 ] ), file[ 2 ] ); od;
  for line in lines do Info( InfoAxe, 1, line ); od;
  status := Process( DirectoryCurrent(), "/bin/sh", InputTextNone(), OutputTextNone(), [ "-c", script ] );
  if status = 0 then
    result := take( Concatenation( folder, "/" ) );
  else
    result := fail;
    if status = 8 then result := false; fi;
    printed := AXE_Problem( status, StringFile( Concatenation( folder, "/problem" ) ) );
    Info( InfoAxe, 1, printed );
  fi;
  AXE_RemoveFolder( folder );
  if not status in [ 0, 5, 8 ] then ErrorNoReturn( printed ); fi;
  return result;
end );
