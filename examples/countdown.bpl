// The loop goes down by steps of at most 3, and stops at 0 or just below.
procedure Down(from: int) returns (left: int)
  requires 0 <= from;
  ensures -3 < left && left <= 0;
{
  var step: int;
  left := from;
  while (left > 0)
    invariant -3 < left && left <= from;
  {
    havoc step;
    assume 1 <= step && step <= 3;
    left := left - step;
  }
}
