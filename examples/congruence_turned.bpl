// Different arguments may have one result.
function f(int): int;

procedure P(x: int, y: int) {
  assume x == 1 && y == 2;
  assert f(x) != f(y);
}
