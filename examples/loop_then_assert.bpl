procedure L(n: bool)
{
  var i: bool;
  i := false;
  while (i != n)
    invariant i ==> n;
  {
    i := true;
  }
  assert i == n;
}
