// A precondition that is checked and one that is free are both assumed.
procedure P(a: bool)
  requires a;
  free requires a;
{
  if (a) {
    return;
  } else if (*) {
    assert false;
  }
  assert false;
}
