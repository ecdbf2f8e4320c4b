// `old` takes the map as it was, or the map and its index.
var m: [int]int, at: int;

procedure Move(to: int)
  modifies m, at;
  ensures m[to] == old(m)[old(at)] && m[to] == old(m[at]);
  ensures old(at) != to ==> m[old(at)] == 0;
{
  m[to], at := m[at], to;
  if (old(at) != to) {
    m[old(at)] := 0;
  }
}

procedure Mixed(to: int)
  modifies at;
{
  at := to;
  assert old(m)[at] == old(m[at]);
}
