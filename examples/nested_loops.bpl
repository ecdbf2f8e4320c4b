// A walk over the cells of a table of n rows and m columns, and how many rows it has seen.
procedure Walk(n: int, m: int) returns (rows: int)
  requires 0 <= n && 0 <= m;
  ensures rows == n;
{
  var i, j: int;
  i, rows := 0, 0;
  while (i < n)
    invariant 0 <= i && i <= n;
    invariant rows == i;
  {
    j := 0;
    while (j < m)
      invariant 0 <= j && j <= m;
    {
      assert 0 <= i && i < n;
      assert 0 <= j && j < m;
      j := j + 1;
    }
    assert j == m;
    i := i + 1;
    rows := rows + 1;
  }
}
