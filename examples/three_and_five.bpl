// Where f, taken three times, leads from a back to a, and taken five times too, so it does taken once: by congruence alone.
function f(int): int;

procedure P(a: int) {
  assume f(f(f(a))) == a;
  assume f(f(f(f(f(a))))) == a;
  assert f(a) == a;
}
