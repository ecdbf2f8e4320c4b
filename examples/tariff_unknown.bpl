// What a function gives is told at the arguments that count, after the constants.
const limit: int;
function rate(int): int;
function open(rate: int, late: bool): bool;
axiom limit == 3 && rate(limit) == 7;

procedure P() {
  assert open(rate(3), true) ==> rate(3) > 7;
}
