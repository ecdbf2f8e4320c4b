// Guessed bounds at two loops, one inside the other: those of the inner one that speak of i rest on those of the outer one.
const {:existential true} i_low, i_high, i_rows, j_low, j_high, j_strict, i_in, i_inside: bool;

procedure Walk(n: int, m: int) returns (rows: int)
  requires 0 <= n && 0 <= m;
  ensures rows == n;
{
  var i, j: int;
  i, rows := 0, 0;
  while (i < n)
    invariant i_low ==> 0 <= i;
    invariant i_high ==> i <= n;
    invariant i_rows ==> rows == i;
  {
    j := 0;
    while (j < m)
      invariant j_low ==> 0 <= j;
      invariant j_high ==> j <= m;
      invariant j_strict ==> j < m;
      invariant i_in ==> 0 <= i;
      invariant i_inside ==> i < n;
    {
      assert 0 <= i && i < n;
      assert 0 <= j && j < m;
      j := j + 1;
    }
    assert j == m;
    i := i + 1;
    rows := rows + 1;
  }
}
