// Maps are the same where they agree everywhere; where they differ, it is at some index, but nobody says at which.
procedure Somewhere(m: [int]int, n: [int]int)
  requires m != n;
{
  assert m[0] != n[0];
}

procedure Nowhere(m: [int]int, n: [int]int)
  requires m[0 := 1] == n[0 := 1];
{
  assert m[0] == n[0] ==> m == n;
}
