// The upper half begins behind the middle here, so the wanted position can be lost.
procedure Search(n: int, wanted: int) returns (at: int)
  requires 0 <= wanted && wanted < n;
  ensures at == wanted;
{
  var lo, hi, mid: int;
  lo, hi := 0, n;
  while (hi - lo > 1)
    invariant 0 <= lo && hi <= n;
    invariant lo <= wanted && wanted < hi;
  {
    havoc mid;
    assume lo < mid && mid < hi;
    if (wanted < mid) {
      hi := mid;
    } else {
      lo := mid + 1;
    }
  }
  at := lo;
}
