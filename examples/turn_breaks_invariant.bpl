// A turn of the loop breaks its invariant.
procedure L()
{
  var i: bool;
  i := true;
  while (*)
    invariant i;
  {
    i := false;
  }
}
