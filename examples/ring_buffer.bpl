// The oldest element's index and the number of elements, in a ring of `size` places.
var head, count: int;

procedure Push(size: int)
  modifies count;
  requires 0 <= count && count < size;
  ensures 0 < count && count <= size;
{
  count := count + 1;
}

procedure Pop(size: int)
  modifies head, count;
  requires 0 <= head && head < size;
  requires 0 < count && count <= size;
  ensures 0 <= head && head < size;
  ensures 0 <= count && count < size;
{
  head := head + 1;
  if (head == size) {
    head := 0;
  }
  count := count - 1;
}

procedure Tail(size: int) returns (tail: int)
  requires 0 <= head && head < size;
  requires 0 <= count && count < size;
  ensures 0 <= tail && tail < size;
{
  tail := head + count;
  if (tail >= size) {
    tail := tail - size;
  }
}
