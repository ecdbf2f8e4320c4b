procedure Swap(a: bool, b: bool) {
  var x, y, t: bool;
  x := a;
  y := b;
  t := x;
  x := y;
  y := t;
  assert x == b;
  assert y == a;
}
