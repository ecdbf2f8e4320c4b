// x_positive holds only with y_positive, and the other way round: neither alone is inductive, both together are. The other two fall.
const {:existential true} x_positive, y_positive, x_small, y_small: bool;

procedure Swap()
{
  var x, y, z: int;
  x, y, z := 1, 1, 1;
  while (*)
    invariant x_positive ==> x >= 1;
    invariant y_positive ==> y >= 1;
    invariant x_small ==> x <= 8;
    invariant y_small ==> y <= 8;
  {
    if (*) {
      x, y := y + z, x;
    } else {
      x, y := y, x;
    }
  }
  assert x + y >= 2;
}
