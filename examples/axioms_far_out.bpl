// The sum leaves 128 bits, so it isn't known whether the axioms are consistent; what is proved is proved under them, be they so or not.
const far: int;
axiom far == 170141183460469231731687303715884105727;
axiom far + 1 < 0;

procedure P(x: int)
{
  assert x - x == 0;
}
