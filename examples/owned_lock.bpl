// A lock that knows its owner. Of threads it is known only which are the same; that a thread isn't `nobody` must be said.
type Thread;

const nobody: Thread;

var owner: Thread;

procedure Acquire(me: Thread);
  requires owner == nobody;
  modifies owner;
  ensures owner == me;

procedure Release(me: Thread);
  requires owner == me;
  modifies owner;
  ensures owner == nobody;

procedure Driver(me: Thread)
  requires owner == nobody && me != nobody;
  modifies owner;
  ensures owner == nobody;
{
  var more: bool;
  more := true;
  while (more)
    invariant owner == nobody;
  {
    call Acquire(me);
    assert owner != nobody;
    call Release(me);
    havoc more;
  }
}

procedure Careless(me: Thread)
  requires owner == nobody;
  modifies owner;
  ensures owner == nobody;
{
  call Acquire(me);
  assert owner != nobody;
  call Release(me);
}
