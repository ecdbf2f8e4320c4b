// A list by its nodes: `next` goes from each to the one behind it, and stays at the end. Nothing else is said of it.
type Node;

const end: Node;

function next(n: Node): Node;

axiom next(end) == end;

procedure Third(head: Node) returns (at: Node)
  ensures at == next(next(head));
  ensures head == end ==> at == end;
{
  at := head;
  at := next(at);
  at := next(at);
}

procedure Walk(head: Node) returns (at: Node, steps: int)
  ensures at == end && steps >= 0;
{
  at, steps := head, 0;
  while (at != end)
    invariant steps >= 0;
  {
    at, steps := next(at), steps + 1;
  }
}

procedure Meet(a: Node, b: Node) returns (meet: bool)
  ensures a == b ==> meet;
  ensures meet ==> next(next(a)) == next(next(b));
{
  var p, q: Node;
  p, q := next(a), next(b);
  meet := p == q;
}
