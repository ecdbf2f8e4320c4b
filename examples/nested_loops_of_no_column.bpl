// A table may have no column, so the inner loop's invariant is too strong on arrival.
procedure Walk(n: int, m: int)
  requires 0 <= n && 0 <= m;
{
  var i, j: int;
  i := 0;
  while (i < n)
    invariant i <= n;
  {
    j := 0;
    while (j + 1 < m)
      invariant 0 <= j && j < m;
    {
      j := j + 1;
    }
    i := i + 1;
  }
}
