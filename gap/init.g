#############################################################################
##
##  init.g: the functions of the package axe are declared
##
ReadPackage( "axe", "lib/axe.gd" );
