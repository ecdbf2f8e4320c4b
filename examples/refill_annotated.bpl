// annotate --guess
// A tank is refilled by portions. The candidates are guesses of a maker of such programs; the tool has guesses of its own.
const {:existential true} within: bool;
const {:existential true} full: bool;
const {:existential true} counted: bool;

var level: int;
var portions: int;

procedure Pour(amount: int, room: int);
  requires within ==> amount <= room;
  modifies level;
  ensures level == old(level) + amount;

procedure Refill(size: int) returns (poured: int)
  requires 0 <= level && level <= size;
  modifies level, portions;
  ensures level <= size;
  ensures full ==> level == size;
{
  var room: int;
  poured := 0;
  room := size - level;
  while (room >= 3)
    invariant room == size - level;
    invariant counted ==> level == old(level) + poured;
  {
    call Pour(3, room);
    poured := poured + 3;
    room := room - 3;
  }
}
