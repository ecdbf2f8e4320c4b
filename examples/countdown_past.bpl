// It may stop as far below 0 as the largest step is long, less one.
procedure Down(from: int) returns (left: int)
  requires 0 <= from;
  ensures left == 0;
{
  left := from;
  while (left > 0)
    invariant -2 <= left;
  {
    if (*) {
      left := left - 1;
    } else {
      left := left - 3;
    }
  }
}
