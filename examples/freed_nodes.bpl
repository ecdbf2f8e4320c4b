// Nodes of a list are freed: neither a freed one nor `null` is read or freed. That a node may be behind itself is easily forgotten.
type Node;

const unique null: Node;

var live: [Node]bool;
var next: [Node]Node;

procedure Read(n: Node) returns (m: Node)
  requires n != null && live[n];
  ensures m == next[n];
{
  m := next[n];
}

procedure Free(n: Node)
  requires n != null && live[n];
  modifies live;
  ensures live == old(live)[n := false];
{
  live[n] := false;
}

procedure DropSecond(head: Node)
  requires head != null && live[head] && next[head] != head;
  requires next[head] != null ==> live[next[head]] && next[next[head]] != next[head];
  requires next[head] != null && next[next[head]] != null ==> live[next[next[head]]];
  modifies live, next;
  ensures live[head] && (next[head] != null ==> live[next[head]]);
{
  var second, third: Node;
  call second := Read(head);
  if (second != null) {
    call third := Read(second);
    next[head] := third;
    call Free(second);
  }
}

procedure FreeTwo(head: Node)
  requires head != null && live[head];
  requires next[head] != null ==> live[next[head]];
  modifies live;
{
  var second: Node;
  call second := Read(head);
  call Free(head);
  if (second != null) {
    call Free(second);
  }
}
