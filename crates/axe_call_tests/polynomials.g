# Makes the table of worked polynomials beside it: gap -q --nointeract polynomials.g
# The answers are GAP's: OrderPolynomial of a vector (its minimal polynomial under a matrix), Factors and Value.
# An element of the field of order p^n is written by its number, that of a0 + a1 x + a2 x^2 being a0 + a1 p + a2 p^2.
ElementOf := function(q, number)
  local p, power, sum;
  p := Characteristic(GF(q)); power := One(GF(q)); sum := Zero(GF(q));
  while number > 0 do
    sum := sum + (number mod p) * power;
    power := power * Z(q);
    number := QuoInt(number, p);
  od;
  return sum;
end;
ElementsByNumber := q -> List([0 .. q - 1], number -> ElementOf(q, number));
NumberOfElement := {q, a} -> Position(ElementsByNumber(q), a) - 1;
DigitsOf := {q, row} -> Concatenation(List(row, a -> String(NumberOfElement(q, a))));
RowDigits := {q, matrix} -> JoinStringsWithSeparator(List(matrix, row -> DigitsOf(q, row)), "/");
CoefficientDigits := {q, f} -> DigitsOf(q, CoefficientsOfUnivariatePolynomial(f));
# the number of a monic polynomial, its coefficients read in base q, the highest most significant
NumberOf := {q, f} -> Sum([1 .. Degree(f) + 1], i -> NumberOfElement(q, CoefficientsOfUnivariatePolynomial(f)[i]) * q^(i - 1));
Minimal := {q, matrix, row} -> Matrix_OrderPolynomialSameField(GF(q), matrix, row, 1);
Irreducibles := function(q, f, s)
  local found;
  found := Set(List(Factors(PolynomialRing(GF(q), 1), f), g -> g / LeadingCoefficient(g)));
  found := Filtered(found, g -> Degree(g) in [1 .. s]);
  SortBy(found, g -> NumberOf(q, g));
  return found;
end;
PutLine := function(fields) Print(JoinStringsWithSeparator(fields, " | "), "\n"); end;
WrittenOver := {q, text} -> Concatenation(String(q), ": ", text);
GreatestDegree := q -> First([12, 11 .. 1], s -> q^s <= 4096);
PutMinimal := function(q, matrix, row)
  local f, found;
  f := Minimal(q, matrix, row);
  PutLine(["minimal", WrittenOver(q, RowDigits(q, matrix)), WrittenOver(q, DigitsOf(q, row)), WrittenOver(q, CoefficientDigits(q, f))]);
end;
FactorLine := function(q, f, s)
  local found;
  found := List(Irreducibles(q, f, s), g -> CoefficientDigits(q, g));
  if found = [] then found := ["none"]; fi;
  PutLine(["factors", String(s), WrittenOver(q, CoefficientDigits(q, f)), JoinStringsWithSeparator(found, " ")]);
end;
RandomMonic := {q, d} -> UnivariatePolynomial(GF(q), Concatenation(List([1 .. d], i -> Random(GF(q))), [One(GF(q))]));
Reset(GlobalMersenneTwister, 1994);
for q in [2, 3, 4, 5, 7, 8, 9] do
  Print("# ", q, " elements\n");
  for n in [1, 2, 3, 5] do
    matrix := RandomMat(n, n, GF(q));
    row := IdentityMat(n, GF(q))[1];
    PutMinimal(q, matrix, row);
    repeat row := List([1 .. n], i -> Random(GF(q))); until not IsZero(row);
    PutMinimal(q, matrix, row);
  od;
  # a vector whose minimal polynomial is of less than the greatest degree
  matrix := DirectSumMat([[ElementOf(q, q - 1)]], RandomMat(2, 2, GF(q)), [[One(GF(q))]]) * One(GF(q));
  PutMinimal(q, matrix, IdentityMat(4, GF(q))[1]);
  PutMinimal(q, matrix, IdentityMat(4, GF(q))[2]);
  for d in [1, 2, 4, 7, 12] do
    f := RandomMonic(q, d);
    FactorLine(q, f, 1);
    FactorLine(q, f, Minimum(GreatestDegree(q), 3));
    FactorLine(q, f, GreatestDegree(q));
  od;
  # a square of an irreducible one, and all linear ones at once
  f := First(List([1 .. 100], i -> RandomMonic(q, 2)), g -> IsIrreducibleRingElement(PolynomialRing(GF(q), 1), g));
  FactorLine(q, f^2 * RandomMonic(q, 1), 2);
  FactorLine(q, Product(ElementsByNumber(q), a -> X(GF(q), 1) - a), 1);
  for d in [1, 2, 3, 6] do
    matrix := RandomMat(3, 3, GF(q));
    f := RandomMonic(q, d);
    PutLine(["value", WrittenOver(q, CoefficientDigits(q, f)), WrittenOver(q, RowDigits(q, matrix)), WrittenOver(q, RowDigits(q, Value(f, matrix)))]);
  od;
od;
QUIT;
