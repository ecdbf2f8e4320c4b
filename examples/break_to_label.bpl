// Behind the inner loop, which may take no turn, and behind the outer one, which it may leave.
procedure P(a: bool)
{
  L:
  while (*)
    invariant a == a;
  {
    while (*)
    {
      break L;
    }
    assert false;
  }
  assert a;
  E:
}
