// Which of these guesses of an array hold together, at any index, is found.
const any: int;
const {:existential true} filled, filled_beyond, kept, kept_before, same: bool;

procedure Fill(a: [int]int, n: int) returns (b: [int]int)
  requires 0 <= n;
  ensures 0 <= any && any < n ==> b[any] == 7;
{
  var i: int;
  b, i := a, 0;
  while (i < n)
    invariant 0 <= i && i <= n;
    invariant filled ==> 0 <= any && any < i ==> b[any] == 7;
    invariant filled_beyond ==> 0 <= any && any <= i ==> b[any] == 7;
    invariant kept ==> i <= any ==> b[any] == a[any];
    invariant kept_before ==> any <= i ==> b[any] == a[any];
    invariant same ==> a == b;
  {
    b[i] := 7;
    i := i + 1;
  }
}
