// --rows 4 --history
// Four rows are too few to find a solution in whole numbers.
const {:existential true} c: bool;

procedure P(x: int, y: int)
{
  assume 7 * x + 12 * y == 31 && 0 < x && x < 40;
  assert c ==> x < 13;
  assert y > 1;
}
