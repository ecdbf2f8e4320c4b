// --history
// Each operator may leave 128 bits. A candidate of such a place is dropped unknown, which the history tells, and the retained set is
// called inductive. Values near the ends of 128 bits are told whole.
const {:existential true} above, below: bool;

procedure Least(x: int)
{
  assume x == -170141183460469231731687303715884105727;
  assert above ==> 2 * x > 0;
  assert below ==> x < 0;
  if (*)
  {
    assert x - 2 > 0;
  }
  else if (*)
  {
    assert x * 2 > 0;
  }
  else
  {
    assert -(x - 1) < 0;
  }
}

procedure Ends() returns (low: int, high: int)
{
  havoc low, high;
  assume low <= -170141183460469231731687303715884105727;
  assume high >= 170141183460469231731687303715884105727;
  assert false;
}
