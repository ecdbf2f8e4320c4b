// The last code of each device, and how often it failed. That codes differ doesn't say that there are no others.
type Device;
type Code;

const unique ok, late, broken: Code;

var last: [Device]Code;
var failures: [Device]int;

procedure Report(d: Device, c: Code)
  modifies last, failures;
  ensures last == old(last)[d := c];
  ensures c == ok ==> failures == old(failures);
  ensures c != ok ==> failures == old(failures)[d := old(failures)[d] + 1];
{
  last[d] := c;
  if (c != ok) {
    failures[d] := failures[d] + 1;
  }
}

procedure Retry(d: Device, other: Device)
  requires d != other;
  modifies last, failures;
  ensures last[d] == ok && last[other] == old(last)[other];
  ensures failures[d] == old(failures)[d] + 1 && failures[other] == old(failures)[other];
{
  call Report(d, late);
  call Report(d, ok);
}

procedure Clear(d: Device)
  modifies last;
{
  if (last[d] == late) {
    last[d] := ok;
  }
  assert last[d] != late;
  assert last[d] == ok || last[d] == broken;
}
