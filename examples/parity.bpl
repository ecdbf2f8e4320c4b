procedure Parity(a, b, c: bool) {
  var p, q: bool;
  p := a == b;
  p := p == c;
  q := b == c;
  q := a == q;
  assert p == q;
}
