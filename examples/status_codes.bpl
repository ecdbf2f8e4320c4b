// Status codes are unique constants: no axiom says which numbers they are, and an answer tells one of them from the others.
const unique idle, busy, closed: int;

function is_status(c: int): bool { c == idle || c == busy || c == closed }

var status: int;

procedure Close()
  modifies status;
  requires is_status(status);
  ensures status == closed;
  ensures status != idle && status != busy;
{
  status := closed;
}

procedure Ask() returns (answered: bool)
  modifies status;
  requires is_status(status);
  ensures is_status(status);
  ensures answered <==> old(status) == idle;
{
  answered := false;
  if (status == idle) {
    status := busy;
  } else {
    return;
  }
  answered := status != idle;
}
