// A loop forgets what its calls modify.
var g: bool;
procedure Bump();
  modifies g;
procedure P()
  modifies g;
{
  var k: bool;
  k := false;
  while (!k)
  {
    call Bump();
    k := true;
  }
  assert g == old(g);
}
