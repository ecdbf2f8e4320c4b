// Objects with fields, as translators of object-oriented languages have them: a heap by object and field.
type Ref;
type Field;

const unique null: Ref;
const unique val, weight: Field;

var heap: [Ref,Field]int;

procedure SetVal(this: Ref, v: int)
  requires this != null;
  modifies heap;
  ensures heap == old(heap)[this, val := v];
{
  heap[this, val] := v;
}

procedure Both(a: Ref, b: Ref)
  requires a != null && b != null;
  modifies heap;
  ensures heap[a, val] == 1 || a == b;
  ensures heap[b, val] == 2;
  ensures heap[a, weight] == old(heap[a, weight]);
{
  call SetVal(a, 1);
  call SetVal(b, 2);
}
