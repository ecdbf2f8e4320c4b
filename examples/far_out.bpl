// Numbers have no end, but an operation on the way of a counterexample may leave 128 bits: such a place is unknown.
procedure Next(x: int)
{
  assume x == 170141183460469231731687303715884105727;
  assert x + 1 < 0;
}

procedure Near(x: int)
{
  assume x == 170141183460469231731687303715884105727;
  assert x - 1 < 0;
}
