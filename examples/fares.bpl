// Fares by zones: functions with a body stand for their bodies, one in the other.
const zone, night: int;
axiom zone > 0;
axiom night >= zone;

function by_zones(n: int): int { 2 * zone + n }
function fare(n: int, late: int): int { by_zones(n) + late }
function is_dearer(a: int, b: int): bool { a > b }

procedure Trip(n: int, is_late: bool) returns (price: int)
  requires n >= 0;
  ensures is_dearer(price, n);
  ensures is_late ==> price >= fare(n, zone);
{
  price := fare(n, 0);
  if (is_late) {
    price := fare(n, night);
  }
}

procedure Return(n: int)
  requires n >= 0;
{
  var there, back: int;
  call there := Trip(n, false);
  call back := Trip(n, true);
  assert is_dearer(there + back, 2 * n + 1);
  assert back >= there;
}
