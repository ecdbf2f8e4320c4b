// A list by its nodes, of which nothing says that it ends: two steps needn't come to the end, and may come back to where they began.
type Node, Place = Node;

const unique end, head: Node;

function next(n: Node): Place;

axiom next(end) == end;

procedure Two() returns (at: Place)
  ensures at == end;
{
  at := next(head);
  at := next(at);
}

procedure Away() returns (at: Node)
  requires next(head) != head;
  ensures at != head;
{
  at := next(next(head));
}
