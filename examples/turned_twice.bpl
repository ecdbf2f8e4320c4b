var g: bool;
procedure P()
  modifies g;
  ensures g == old(g);
{
  g := !g;
  g := !g;
}
