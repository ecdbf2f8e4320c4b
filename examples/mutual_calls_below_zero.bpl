// Nothing stops the calls at 0.
procedure Ping(n: int) returns (r: int)
  requires 0 <= n;
  ensures r == n;
{
  call r := Pong(n - 1);
  r := r + 1;
}

procedure Pong(n: int) returns (r: int)
  requires 0 <= n;
  ensures r == n;
{
  if (n == 0) {
    r := 0;
  } else {
    call r := Ping(n - 1);
  }
}
