#############################################################################
##
##  axe.gd: what the package axe offers
##
##  Modules are those of GAP's own MeatAxe, as GModuleByMats makes them, over the fields of order 2, 3, 4, 5, 7, 8 and
##  9, with 1 to 16 generators and dimension at most 4096. Matrices come back immutable and compressed, and one without
##  rows as the empty list. Where `axe` can't decide, the answer is `fail`; any other fault of it is an error, whose
##  text is the line that it printed.
##

#V  InfoAxe . . . . . . . at level 1 the commands are shown that are run, and why an answer is `fail`, or `false`
DeclareInfoClass( "InfoAxe" );

#F  AxeExecutable( [path] ) . . . . . . . . . . . the program that is run; with an argument that one is, from then on
DeclareGlobalFunction( "AxeExecutable" );

##  Files, packed as the program has them. They may lie anywhere: a name is a path.

#F  AxeWriteMatrix( file, matrix, field[, columns] ) . . . of a matrix without rows its columns have to be told
DeclareGlobalFunction( "AxeWriteMatrix" );
#F  AxeReadMatrix( file )
DeclareGlobalFunction( "AxeReadMatrix" );
#F  AxeWriteModule( name, module )
##  A name that ends in `.axm` is that of one file with all generators, as `axe chop -m` reads it; else they go to the
##  files NAME.1, NAME.2 and so on.
DeclareGlobalFunction( "AxeWriteModule" );
#F  AxeReadModule( name[, number] ) . . . . . . .  all generators, or where each has its file the first of them
##  Without a number those are as many as there are without a gap.
DeclareGlobalFunction( "AxeReadModule" );
#F  AxeReadReport( file ) . . . . . . . . . . . .  what a report of `axe chop` says, as a record
##  It has `version`, 1 or 2; `field`, `dimension`, `generators`, `seed` and `words`; `names`, `dimensions`,
##  `multiplicities` and `witnesses` of the factors; and `series`, the position of each place's factor, from the bottom.
##  A witness has `word`, the number of the word by which the factor was seen to be irreducible, and `poly`, the digits
##  of the polynomial that decided at its value, the constant first, or `fail`; in version 1 both are `fail`.
DeclareGlobalFunction( "AxeReadReport" );
#F  AxeReadSeries( name ) . . . . . . . . . . . .  all that `axe chop NAME` wrote, as the record that AxeChop answers
##  For a name that ends in `.axm` it is what `axe chop -m` wrote.
DeclareGlobalFunction( "AxeReadSeries" );
#F  AxeWriteSeries( name, series ) . . . . . . . . such a record, to the files that AxeReadSeries reads
DeclareGlobalFunction( "AxeWriteSeries" );

##  Matrices. The field is told where matrices lie in a smaller one.

#F  AxeProduct( left, right[, field] )
DeclareGlobalFunction( "AxeProduct" );
#F  AxeInverse( matrix[, field] )
DeclareGlobalFunction( "AxeInverse" );
#F  AxeNullspaceMat( matrix[, field] ) . . . . . . the reduced basis of the null space
DeclareGlobalFunction( "AxeNullspaceMat" );

##  Modules

#F  AxePermutationModule( group, field[, degree] ) . . . of a group of permutations, or of a list of them
DeclareGlobalFunction( "AxePermutationModule" );
#F  AxeDualModule( module ) . . . . . . . . . . .  by the inverse transposes, as DualGModule has it
DeclareGlobalFunction( "AxeDualModule" );
#F  AxeSpinnedBasis( vectors, module ), AxeSpinnedBasis( vectors, matrices, field )
##  is the reduced basis of the space that the vectors generate, as that of MTX.SpinnedBasis is.
DeclareGlobalFunction( "AxeSpinnedBasis" );
#F  AxeStandardBasis( vector, module ), AxeStandardBasis( vector, matrices, field )
##  is the standard basis of the space that the vector generates.
DeclareGlobalFunction( "AxeStandardBasis" );
#F  AxeInducedActionSubmodule( module, basis )
##  is the action on a submodule, with respect to this basis of it.
DeclareGlobalFunction( "AxeInducedActionSubmodule" );
#F  AxeInducedActionFactorModule( module, vectors )
##  is the action modulo the submodule that the vectors span.
DeclareGlobalFunction( "AxeInducedActionFactorModule" );

##  Composition series. Each takes the options `seed` and `words`, as in AxeChop( module : seed := 2, words := 10000 ),
##  and answers `fail` where no word decides a section of the module.

#F  AxeChop( module )
##  is a record: `basis`, by which each generator is block lower triangular; `factors`, the constituents up to
##  isomorphism, as modules that are known to be irreducible; `multiplicities`; `series`, of each place from the bottom
##  the position in `factors`; `names`, those that axe has for the factors; and `report`, as AxeReadReport answers it.
DeclareGlobalFunction( "AxeChop" );
#F  AxeCompositionFactors( module ) . . . . . . .  a constituent for each place of the series, from the bottom
DeclareGlobalFunction( "AxeCompositionFactors" );
#F  AxeCollectedFactors( module ) . . . . . . . .  pairs of a constituent and its multiplicity
DeclareGlobalFunction( "AxeCollectedFactors" );
#F  AxeBasesCompositionSeries( module ) . . . . .  reduced bases of the submodules of a series, from zero up
DeclareGlobalFunction( "AxeBasesCompositionSeries" );
#F  AxeIsIrreducible( module )
DeclareGlobalFunction( "AxeIsIrreducible" );
#F  AxeVerify( module, series ), AxeVerify( name )
##  whether a record as AxeChop answers it is a composition series of the module, by the words and polynomials that its
##  report names; or what lies in files beside the module of this name, whoever wrote them. Where the answer is `false`,
##  InfoAxe tells the first reason.
DeclareGlobalFunction( "AxeVerify" );
