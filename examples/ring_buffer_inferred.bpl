// What each operation of a ring of `size` places keeps is inferred; an implementation that pushes and pops rests on it.
const {:existential true} head_low, head_high, count_low, count_high, never_full: bool;
const {:existential true} room, some: bool;
var head, count: int;

procedure Push(size: int)
  modifies count;
  requires count < size;
  requires count_low ==> 0 <= count;
  ensures count == old(count) + 1;
  ensures count_high ==> count <= size;
  ensures never_full ==> count < size;
  ensures some ==> count > 0;
{
  count := count + 1;
}

procedure Pop(size: int)
  modifies head, count;
  requires 0 < count && count <= size;
  requires head_low ==> 0 <= head;
  requires head_high ==> head < size;
  ensures head_low ==> 0 <= head;
  ensures head_high ==> head < size;
  ensures room ==> count < size;
  ensures count == old(count) - 1;
{
  head := head + 1;
  if (head == size) {
    head := 0;
  }
  count := count - 1;
}

procedure Turn(size: int)
  modifies head, count;
  requires 0 < size;
{
  head, count := 0, 0;
  while (*)
    invariant head_low ==> 0 <= head;
    invariant head_high ==> head < size;
    invariant count_low ==> 0 <= count;
    invariant never_full ==> count < size;
    invariant room ==> count <= size;
  {
    if (count < size) {
      call Push(size);
    }
    if (*) {
      assume count > 0;
      call Pop(size);
    }
    assert 0 <= head && head < size;
    assert 0 <= count && count <= size;
  }
}
