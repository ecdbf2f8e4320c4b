// The minute is forgotten where the seconds begin again.
procedure Tick(minutes: int, seconds: int) returns (m: int, s: int)
  requires 0 <= seconds && seconds < 60;
  ensures 0 <= s && s < 60;
  ensures 60 * m + s == 60 * minutes + seconds + 1;
{
  m, s := minutes, seconds + 1;
  if (s == 60) {
    s := 0;
  }
}
