// Error codes are constants; the axioms tell their order. A run ends with the worst code of its steps.
const ok, missing, broken: int;
axiom ok == 0 && ok < missing && missing < broken;

function is_code(c: int): bool { c == ok || c == missing || c == broken }
function is_worse_of(r: int, a: int, b: int): bool { (r == a || r == b) && r >= a && r >= b }

procedure Worse(a: int, b: int) returns (r: int)
  requires is_code(a) && is_code(b);
  ensures is_code(r) && is_worse_of(r, a, b);
{
  r := a;
  if (b > a) {
    r := b;
  }
}

procedure Run(steps: int) returns (r: int)
  ensures is_code(r);
  ensures r == ok || r > 0;
{
  var i, step: int;
  i, r := 0, ok;
  while (i < steps)
    invariant is_code(r);
  {
    havoc step;
    assume is_code(step);
    call r := Worse(r, step);
    i := i + 1;
  }
}
