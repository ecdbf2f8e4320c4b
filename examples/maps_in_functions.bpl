// A function gives the same of the same map, however the map was made; and what it gives may be a map.
type Tree;

function size(keys: [int]bool): int;
function marks(t: Tree): [int]bool;

procedure Turned(keys: [int]bool)
{
  assert size(keys[1 := true][2 := false]) == size(keys[2 := false][1 := true]);
}

procedure Marked(s: Tree, t: Tree, k: int)
  requires marks(s)[k];
{
  assert s == t ==> marks(t) == marks(s)[k := true];
  assert marks(s)[k := false] != marks(s);
}

procedure Elsewhere(keys: [int]bool, k: int)
  requires size(keys) == 3;
{
  assert size(keys[k := true]) >= 3;
}
