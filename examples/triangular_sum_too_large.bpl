// 0 + 1 + 2 is less than twice 2.
procedure Triangle(n: int) returns (sum: int)
  requires n == 2;
  ensures sum >= 2 * n;
{
  sum := 0;
  sum := sum + 1;
  sum := sum + 2;
}
