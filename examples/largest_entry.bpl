// The largest of the entries below n, and where it stands. What `max` is for all numbers is assumed for those at hand.
const any: int;

function max(a: int, b: int): int;
function is_max(a: int, b: int): bool { max(a, b) >= a && max(a, b) >= b && (max(a, b) == a || max(a, b) == b) }

procedure Largest(a: [int]int, n: int) returns (m: int, at: int)
  requires n > 0;
  ensures 0 <= at && at < n && m == a[at];
  ensures 0 <= any && any < n ==> m >= a[any];
{
  var i: int;
  m, at, i := a[0], 0, 1;
  while (i < n)
    invariant 1 <= i && i <= n && 0 <= at && at < n;
    invariant m == a[at];
    invariant 0 <= any && any < i ==> m >= a[any];
  {
    if (a[i] > m) {
      at := i;
    }
    assume is_max(m, a[i]);
    m, i := max(m, a[i]), i + 1;
  }
}

procedure FromNought(a: [int]int, n: int) returns (m: int, at: int)
  requires n > 0;
  ensures m == a[at];
{
  var i: int;
  m, at, i := 0, 0, 0;
  while (i < n)
    invariant 0 <= i && i <= n;
    invariant i == 0 ==> m == 0 && at == 0;
    invariant i > 0 ==> m == a[at];
  {
    if (a[i] > m) {
      at := i;
    }
    assume is_max(m, a[i]);
    m, i := max(m, a[i]), i + 1;
  }
}
