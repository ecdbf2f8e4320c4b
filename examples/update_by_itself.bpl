// A map that gets at an index what it has there is the map that it was.
procedure Itself(m: [int]int, i: int)
{
  assert m[i := m[i]] == m;
}

procedure Back(m: [int]int, i: int, v: int)
{
  var n: [int]int;
  n := m[i := v];
  assert n[i := m[i]] == m;
}

procedure Inside(m: [int][int]bool, i: int, j: int)
{
  var n: [int][int]bool;
  n := m;
  n[i][j] := m[i][j];
  assert n == m;
}
