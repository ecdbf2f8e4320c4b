// A jump to one of two labels; each way ends the body.
procedure P() returns (r: bool, s: bool)
  ensures r || s;
{
  goto A, B;
  A:
  r := true;
  return;
  B:
  s := true;
}
