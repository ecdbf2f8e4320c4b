// Equal arguments have equal results: nothing else is said of the function.
function f(int): int;

procedure P(x: int, y: int) {
  assert f(x) != f(y) ==> x != y;
}
