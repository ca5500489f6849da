#############################################################################
##
##  read.g: the functions of the package axe, lowest first
##
ReadPackage( "axe", "lib/packed.gi" );
ReadPackage( "axe", "lib/files.gi" );
ReadPackage( "axe", "lib/program.gi" );
ReadPackage( "axe", "lib/matrices.gi" );
ReadPackage( "axe", "lib/modules.gi" );
ReadPackage( "axe", "lib/series.gi" );
