// `old` in a postcondition, behind calls, and a result that is stored into a global that the callee modifies.
var g: bool;
var h: bool;
procedure Flip() returns (was: bool)
  modifies g;
  ensures g == !old(g) && was == old(g);
{
  was := g;
  g := !g;
}
procedure Twice()
  modifies g, h;
  ensures g == old(g);
  ensures h == !old(g);
{
  var w: bool;
  call w := Flip();
  h := g;
  call w := Flip();
}
procedure Store()
  modifies g;
  ensures g == old(g);
{
  call g := Flip();
}
