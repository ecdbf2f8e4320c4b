// Each candidate rests on the one before it, and the first is false: they fall one after the other, and an assertion fails then.
const {:existential true} c0, c1, c2, c3: bool;

procedure Shift()
{
  var x0, x1, x2, x3: int;
  x0, x1, x2, x3 := 1, 1, 1, 1;
  while (*)
    invariant c0 ==> x0 == 1;
    invariant c1 ==> x1 == 1;
    invariant c2 ==> x2 == 1;
    invariant c3 ==> x3 == 1;
  {
    x0, x1, x2, x3 := 2, x0, x1, x2;
  }
  assert x3 == 1;
}
