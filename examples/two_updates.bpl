// The later of two updates counts where both are at one index.
procedure Hasty(m: [int]int, i: int, j: int)
{
  var n: [int]int;
  n := m;
  n[i] := 1;
  n[j] := 2;
  assert n[i] == 1;
}

procedure Careful(m: [int]int, i: int, j: int)
  requires i != j;
{
  var n: [int]int;
  n := m;
  n[i] := 1;
  n[j] := 2;
  assert n[i] == 1;
  assert n == m[j := 2][i := 1];
}
