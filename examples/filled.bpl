// A constant of which nothing is known stands for any index: what holds there holds everywhere.
const any: int;

procedure Fill(a: [int]int, n: int, v: int) returns (b: [int]int)
  requires 0 <= n;
  ensures 0 <= any && any < n ==> b[any] == v;
  ensures any < 0 || n <= any ==> b[any] == a[any];
{
  var i: int;
  b, i := a, 0;
  while (i < n)
    invariant 0 <= i && i <= n;
    invariant 0 <= any && any < i ==> b[any] == v;
    invariant any < 0 || i <= any ==> b[any] == a[any];
  {
    b[i] := v;
    i := i + 1;
  }
}

procedure OneTooMany(a: [int]int, n: int) returns (b: [int]int)
  requires 0 <= n;
  ensures n <= any ==> b[any] == a[any];
{
  var i: int;
  b, i := a, 0;
  while (i <= n)
    invariant 0 <= i && i <= n + 1;
    invariant i <= any ==> b[any] == a[any];
  {
    b[i] := 0;
    i := i + 1;
  }
}
