// A free postcondition is assumed by callers and checked by nobody.
procedure Q() returns (r: bool)
  free ensures r;
{
  r := false;
}
procedure C()
{
  var a: bool;
  call a := Q();
  assert a;
}
