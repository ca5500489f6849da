# Runs all tests of the package, and ends GAP with status 0 where they pass. The program `axe` is on the path.
LoadPackage( "axe" );
TestDirectory( DirectoriesPackageLibrary( "axe", "tst" ), rec( exitGAP := true ) );
FORCE_QUIT_GAP( 1 );
