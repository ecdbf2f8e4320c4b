// Next has no body here, so nothing checks what its candidate says: the report says that it is retained unchecked.
const {:existential true} adds_one: bool;

procedure Next(k: int) returns (r: int);
  ensures adds_one ==> r == k + 1;

procedure Twice(k: int) returns (r: int)
  ensures r == k + 2;
{
  call r := Next(k);
  call r := Next(r);
}
