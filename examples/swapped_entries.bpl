// Two entries of an array change places, one after the other; of two arrays at once, since all right sides and indices come first.
procedure Swap(a: [int]int, i: int, j: int) returns (b: [int]int)
  ensures b[i] == a[j] && b[j] == a[i];
  ensures i == j ==> b == a;
{
  b := a;
  b[i] := a[j];
  b[j] := a[i];
}

procedure Exchange(a: [int]int, b: [int]int, i: int) returns (c: [int]int, d: [int]int)
  ensures c == a[i := b[i]] && d == b[i := a[i]];
{
  c, d := a, b;
  c[i], d[i] := d[i], c[i];
}

procedure Nested(a: [int]int)
  requires a[0] == 1 && a[1] == 0;
{
  var b: [int]int;
  b := a;
  b[b[0]] := b[b[1]] + 4;
  assert b[0] == 1 && b[1] == 5;
  assert b[b[0]] == b[b[1]];
}
