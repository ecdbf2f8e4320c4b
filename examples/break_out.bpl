procedure P()
{
  var k: bool;
  k := false;
  while (true)
    invariant !k;
  {
    break;
  }
  assert !k;
}
