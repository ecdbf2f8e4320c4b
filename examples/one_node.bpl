// --nodes 1
// One node is too few for the first assertion, so its candidate is dropped unknown, and the retained set is called inductive.
const {:existential true} c: bool;

procedure P(a: bool, b: bool)
{
  assume (a || b) && (a || !b) && (!a || b) && (!a || !b);
  assert c ==> false;
  assert false;
}
