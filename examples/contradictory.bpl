// No interpretation meets these axioms: what is verified under them says nothing, and the status isn't 0.
const low, high: int;
axiom low < high;
axiom high <= low;

procedure P() {
  assert false;
}
