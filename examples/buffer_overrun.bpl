// A buffer that takes one item too many where it is full.
const capacity: int;
axiom 1 <= capacity;

function fits(n: int): bool { 0 <= n && n <= capacity }

var count: int;

procedure Put() returns (done: bool)
  modifies count;
  requires fits(count);
  ensures fits(count);
  ensures done ==> count == old(count) + 1;
  ensures !done ==> count == capacity;
{
  done := count <= capacity;
  if (done) {
    count := count + 1;
  }
}

procedure Fill()
  modifies count;
  requires fits(count);
  ensures count == capacity;
{
  var done: bool;
  done := true;
  while (done)
    invariant fits(count);
    invariant !done ==> count == capacity;
  {
    call done := Put();
  }
}
