// Which of three guessed invariants hold together is inferred.
const {:existential true} from_zero, from_one, to_n: bool;

procedure Count(n: int) returns (i: int)
  requires 0 <= n;
  ensures i == n;
{
  i := 0;
  while (i < n)
    invariant from_zero ==> i >= 0;
    invariant from_one ==> i >= 1;
    invariant to_n ==> i <= n;
  {
    i := i + 1;
  }
}
