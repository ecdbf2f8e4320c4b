// What stands in an argument is evaluated where the application stands: before the call of the function, not in its body.
function step(x: int): int { x + 1 }

var g: int;

procedure Step()
  modifies g;
  ensures g == step(step(old(g)));
  ensures g == step(old(step(g)));
{
  g := step(g);
  assert g == step(old(g));
  g := step(g);
}
