// A result that is kept belongs to the argument at hand; that it belongs to the first one holds at the start alone.
const {:existential true} here: bool;
const {:existential true} first: bool;
function hash(int): int;

procedure Look(n: int) returns (found: int)
  ensures found == hash(n);
{
  var i: int;
  var kept: int;
  i := 0;
  kept := hash(0);
  while (i != n)
    invariant here ==> kept == hash(i);
    invariant first ==> kept == hash(0);
  {
    i := i + 1;
    kept := hash(i);
  }
  found := kept;
}
