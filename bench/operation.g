# Does in GAP what a command of axe does, and prints the processor seconds that this takes in memory, and then what came out: how
# many rows, or for chop the dimensions of the constituents, ascending, each with its multiplicity. Set before this is read:
# operation, the name of the command; q, the number of elements; and names: the matrices are those of the texts NAME.txt. For
# zsp and zqt the first has the vector to be spun, or a basis of the submodule, and the two others are the generators.
field := GF(q);;
# the elements in the order of the numbers that they have in texts
elements := List([0 .. q - 1], number -> Zero(field) +
  Sum([0 .. DegreeOverPrimeField(field) - 1], i -> QuoInt(number, Characteristic(field) ^ i) * Z(q) ^ i));;
read := function(name)
  local lines, columns, digits, rows;
  lines := SplitString(ReadAll(InputTextFile(Concatenation(name, ".txt"))), "\n");
  columns := Int(SplitString(lines[1], "=")[4]);
  digits := Concatenation(lines{[2 .. Length(lines)]});
  rows := List([1 .. Length(digits) / columns], i -> digits{[(i - 1) * columns + 1 .. i * columns]});
  return ImmutableMatrix(field, List(rows, row -> elements{List(row, digit -> IntChar(digit) - 47)}));
end;;
matrices := List(names, read);;
if operation = "chop" then module := GModuleByMats(matrices, field);;
elif Length(matrices) = 3 then module := GModuleByMats(matrices{[2, 3]}, field);; fi;
# the classes of isomorphic modules in a list, as pairs of one and how many there are
classes := function(modules)
  local found, module, class;
  found := [];
  for module in modules do
    class := First(found, c -> c[1].dimension = module.dimension and MTX.IsEquivalent(c[1], module));
    if class = fail then Add(found, [module, 1]); else class[2] := class[2] + 1; fi;
  od;
  return found;
end;;
actions := rec(
  zmu := function() return matrices[1] * matrices[2]; end,
  ziv := function() return matrices[1] ^ -1; end,
  znu := function() return NullspaceMat(matrices[1]); end,
  zsp := function() return MTX.SpinnedBasis(matrices[1][1], module.generators, field); end,
  zqt := function() return MTX.InducedActionFactorModule(module, matrices[1]).generators[1]; end,
  chop := function() return classes(MTX.CompositionFactors(module)); end);;
before := Runtime();;
result := actions.(operation)();;
taken := Runtime() - before;;
Print(QuoInt(taken, 1000), ".", String(taken mod 1000 + 1000){[2 .. 4]});
if operation = "chop" then
  dimensions := List(result, class -> [class[1].dimension, class[2]]);
  Sort(dimensions);
  for pair in dimensions do Print(" ", pair[1], "x", pair[2]); od;
else Print(" ", Length(result)); fi;
Print("\n");
QUIT;
