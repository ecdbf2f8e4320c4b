// A set as a map to truth values, with its size: what is added twice counts once.
type Item;

var set: [Item]bool;
var size: int;

procedure Add(x: Item)
  modifies set, size;
  ensures set == old(set)[x := true];
  ensures old(set)[x] ==> size == old(size);
  ensures !old(set)[x] ==> size == old(size) + 1;
{
  if (!set[x]) {
    size := size + 1;
  }
  set[x] := true;
}

procedure Remove(x: Item)
  modifies set, size;
  ensures set == old(set)[x := false];
  ensures old(set)[x] ==> size == old(size) - 1;
  ensures !old(set)[x] ==> size == old(size);
{
  if (set[x]) {
    set[x], size := false, size - 1;
  }
}

procedure AddAndRemove(x: Item)
  requires !set[x];
  modifies set, size;
  ensures set == old(set) && size == old(size);
{
  call Add(x);
  call Remove(x);
}

procedure AddTwo(x: Item, y: Item)
  requires !set[x] && !set[y] && size >= 0;
  modifies set, size;
  ensures set[x] && set[y];
  ensures size == old(size) + 2;
{
  call Add(x);
  call Add(y);
}
