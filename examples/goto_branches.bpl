procedure P()
{
  var x: bool;
  goto A, B;
  A:
  x := true;
  goto C;
  B:
  x := false;
  C:
  assert x;
}
