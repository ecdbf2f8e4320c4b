// --guess --history
// Without an invariant of its own: those that hold are found among the guesses.
procedure Count(n: int) returns (i: int)
  requires 0 <= n;
  ensures i == n;
{
  i := 0;
  while (i < n)
  {
    i := i + 1;
  }
}
