// Two procedures that call each other, each by the other one's specification.
procedure Ping(n: int) returns (r: int)
  requires 0 <= n;
  ensures r == n;
{
  r := 0;
  if (n > 0) {
    call r := Pong(n - 1);
    r := r + 1;
  }
}

procedure Pong(n: int) returns (r: int)
  requires 0 <= n;
  ensures r == n;
{
  if (n == 0) {
    r := 0;
  } else {
    call r := Ping(n - 1);
    r := 1 + r;
  }
}
