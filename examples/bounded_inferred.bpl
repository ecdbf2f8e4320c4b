// Guesses about constants: those that hold under every interpretation of the axioms stay.
const {:existential true} to_limit, to_ten, from_low, odd_one: bool;
const low, limit: int;
axiom 0 <= low && low < limit;

function within(x: int): bool { low <= x && x <= limit }

procedure Climb() returns (x: int)
  ensures x == limit;
{
  x := low;
  while (x < limit)
    invariant to_limit ==> within(x);
    invariant to_ten ==> x <= 10;
    invariant from_low ==> low <= x;
    invariant odd_one ==> x != low + 1;
  {
    x := x + 1;
  }
}
