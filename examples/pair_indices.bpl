// An index of two parts is another one where they are turned round, unless they are the same.
procedure Apart(m: [int,int]bool)
{
  var n: [int,int]bool;
  n := m;
  n[1, 2] := true;
  assert n[2, 1] == m[2, 1];
}

procedure Turned(m: [int,int]bool, i: int, j: int)
{
  var n: [int,int]bool;
  n := m[i, j := true][j, i := false];
  assert n[i, j] <==> i != j;
}
