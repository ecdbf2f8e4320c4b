// Two of these status codes are unique; the third may be the number of one of them.
const unique idle, busy: int;
const closed: int;

var status: int;

procedure Close()
  modifies status;
  ensures status != busy;
{
  status := closed;
}

procedure Ask() returns (answered: bool)
  modifies status;
  ensures answered <==> old(status) == idle;
{
  answered := false;
  if (status == idle) {
    status := busy;
    answered := status != idle;
  }
}
