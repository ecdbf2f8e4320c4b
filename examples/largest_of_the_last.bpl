// The last comparison is with the wrong number.
procedure Largest(a: int, b: int, c: int) returns (m: int)
  ensures m >= a && m >= b && m >= c;
{
  m := a;
  if (b > m) {
    m := b;
  }
  if (c > a) {
    m := c;
  }
}
