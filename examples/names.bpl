procedure P(x: bool) returns (r: bool)
{
  y := x;
  r := x && true + 1;
}
