// 0 + 1 + .. + n, one step after the other, is at least n, and at least 2 n - 1.
procedure Triangle(n: int) returns (sum: int)
  requires 0 <= n;
  ensures sum >= n;
  ensures sum >= 2 * n - 1;
{
  var i: int;
  i, sum := 0, 0;
  while (i != n)
    invariant 0 <= i && i <= n;
    invariant sum >= i && sum >= 2 * i - 1;
  {
    i := i + 1;
    sum := sum + i;
  }
}
