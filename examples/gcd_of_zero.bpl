// With 0 allowed the algorithm does not begin well.
procedure Gcd(x: int, y: int) returns (g: int)
  requires 0 <= x && 0 < y;
  ensures 0 < g && g <= y;
{
  var a, b: int;
  a, b := x, y;
  while (a != b)
    invariant 0 < a;
    invariant 0 < b && b <= y;
  {
    if (a > b) {
      a := a - b;
    } else {
      b := b - a;
    }
  }
  g := a;
}
