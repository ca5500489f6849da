#############################################################################
##
##  PackageInfo.g: what GAP has to know of the package axe
##
SetPackageInfo( rec(

PackageName := "axe",
Subtitle := "Composition series of modules, by the proved MeatAxe axe",
Version := "0.1.0",
Date := "28/11/2026",

Persons := [],
Status := "dev",

# GAP asks for addresses of each package. This one has none on the net, and comes with the program.
PackageWWWHome := "https://axe.invalid",
README_URL := Concatenation( ~.PackageWWWHome, "/README.md" ),
PackageInfoURL := Concatenation( ~.PackageWWWHome, "/PackageInfo.g" ),
ArchiveURL := Concatenation( ~.PackageWWWHome, "/axe-", ~.Version ),
ArchiveFormats := ".tar.gz",

AbstractHTML :=
  "Hands modules over fields of at most nine elements to the program <tt>axe</tt>, whose answers are proved.",

PackageDoc := [],

Dependencies := rec(
  GAP := ">= 4.12",
  NeededOtherPackages := [ [ "GAPDoc", ">= 1.6" ] ],
  SuggestedOtherPackages := [],
  ExternalConditions := [ "the program axe on the path, or named by AxeExecutable" ],
),

AvailabilityTest := ReturnTrue,
BannerString := Concatenation( "axe ", ~.Version, ": ", ~.Subtitle, "\n" ),
TestFile := "tst/testall.g",
Keywords := [ "MeatAxe", "composition series", "modular representations" ],

) );
