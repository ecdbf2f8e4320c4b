// No number is both even and odd; it takes whole numbers to see it.
procedure Never(x: int, half: int, rest: int)
  requires x == 2 * half;
{
  assert x != 2 * rest + 1;
}

procedure Perhaps(x: int, half: int, rest: int)
  requires x == 2 * half;
{
  assert x != 4 * rest + 2;
}
