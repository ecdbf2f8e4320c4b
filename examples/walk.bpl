// A function without arguments, and one of two.
function start(): int;
function next(at: int, on: bool) returns (to: int);

procedure Walk(on: bool) returns (at: int)
  ensures at == next(next(start(), on), on);
{
  at := start();
  at := next(at, on);
  at := next(at, on);
}
