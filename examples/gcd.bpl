// Euclid's algorithm by subtraction: both numbers stay positive and only shrink.
procedure Gcd(x: int, y: int) returns (g: int)
  requires 0 < x && 0 < y;
  ensures 0 < g && g <= x && g <= y;
{
  var a, b: int;
  a, b := x, y;
  while (a != b)
    invariant 0 < a && a <= x;
    invariant 0 < b && b <= y;
  {
    if (a > b) {
      a := a - b;
    } else {
      b := b - a;
    }
  }
  g := a;
}
