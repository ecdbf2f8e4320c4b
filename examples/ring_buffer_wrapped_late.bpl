// The index wraps one place too late.
var head, count: int;

procedure Pop(size: int)
  modifies head, count;
  requires 0 <= head && head < size;
  requires 0 < count && count <= size;
  ensures 0 <= head && head < size;
{
  head := head + 1;
  if (head > size) {
    head := 0;
  }
  count := count - 1;
}
