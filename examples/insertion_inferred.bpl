// A sorted insertion into three cells: the hole moves down while what stands before it is above x, and then takes x.
const {:existential true} in_bounds, at_top, first_pair, last_pair, above, filled: bool;

procedure Insert(x: int, first: int, second: int) returns (a: int, b: int, c: int)
  requires first <= second;
  ensures a <= b && b <= c;
{
  var hole: int;
  a, b, c, hole := first, second, second, 2;
  while (hole > 0)
    invariant in_bounds ==> 0 <= hole && hole <= 2;
    invariant at_top ==> hole == 2;
    invariant first_pair ==> a <= b;
    invariant last_pair ==> b <= c;
    invariant above ==> hole == 2 || x <= b;
    invariant filled ==> hole == 2 || b == a || b == first;
  {
    if (hole == 2) {
      if (b <= x) {
        break;
      }
      c := b;
    } else {
      if (a <= x) {
        break;
      }
      b := a;
    }
    hole := hole - 1;
  }
  if (hole == 2) {
    c := x;
  } else if (hole == 1) {
    b := x;
  } else {
    a := x;
  }
}
