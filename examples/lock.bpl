// A lock that is taken and given back on each way through a driver.
var held: bool;
procedure Acquire();
  requires !held;
  modifies held;
  ensures held;
procedure Release();
  requires held;
  modifies held;
  ensures !held;
procedure Driver(urgent: bool)
  requires !held;
  modifies held;
  ensures !held;
{
  var more: bool;
  more := true;
  while (more)
    invariant !held;
  {
    call Acquire();
    havoc more;
    if (urgent && !more) {
      call Release();
      return;
    }
    call Release();
  }
}
procedure Hasty(urgent: bool)
  requires !held;
  modifies held;
  ensures !held;
{
  call Acquire();
  if (urgent) {
    return;
  }
  call Release();
}
