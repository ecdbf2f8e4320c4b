// A tariff of which two prices are known.
function price(weight: int): int;
function fits(weight: int): bool { 0 < weight && weight <= 30 }
axiom price(10) == 5;
axiom price(20) == 9;

procedure Send(weight: int) returns (paid: int)
  requires fits(weight);
  ensures paid == price(weight);
{
  if (weight == 10) {
    paid := 5;
  } else {
    paid := price(weight);
  }
}

procedure SendTwo() returns (paid: int)
  ensures paid == 14;
{
  var more: int;
  call paid := Send(10);
  call more := Send(20);
  paid := paid + more;
}
