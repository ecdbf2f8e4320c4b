// Two variables change places without a third one.
var x, y: int;

procedure Swap()
  modifies x, y;
  ensures x == old(y) && y == old(x);
{
  x := x + y;
  y := x - y;
  x := x - y;
}
