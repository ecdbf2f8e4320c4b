// Leaving two loops at once, a loop of no turn, and a label at the end of a body.
procedure Out(a: bool) returns (done: bool)
  ensures done;
{
  done := true;
  Outer:
  while (*)
    invariant done;
  {
    while (*)
      invariant done;
    {
      if (a) {
        break Outer;
      }
      done := !done;
      done := !done;
    }
  }
}
procedure NoTurn(a: bool) returns (b: bool)
  ensures b == a;
{
  b := a;
  while (false)
    invariant b == a;
  {
    b := !a;
    b := !b;
  }
  goto End;
  End:
}
