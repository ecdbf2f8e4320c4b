// A set of whole numbers as a map to truth values; `havoc` and a loop forget it as a whole.
const {:existential true} zero, one, all: bool;

var set: [int]bool;

procedure Add(k: int)
  modifies set;
  ensures set == old(set)[k := true];
{
  set[k] := true;
}

procedure AddSome(n: int)
  modifies set;
  ensures old(set)[0] ==> set[0];
{
  var k: int;
  k := 1;
  while (k < n)
    invariant k >= 1;
    invariant zero ==> set[0] == old(set[0]);
    invariant one ==> set[1] == old(set)[1];
    invariant all ==> set == old(set);
  {
    call Add(k);
    k := k + 1;
  }
}

procedure Forget()
  modifies set;
{
  havoc set;
  assume set[3];
  assert set != old(set) || old(set)[3];
}
