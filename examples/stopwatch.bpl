// Seconds carry into minutes, and the total time is kept.
procedure Tick(minutes: int, seconds: int) returns (m: int, s: int)
  requires 0 <= minutes;
  requires 0 <= seconds && seconds < 60;
  ensures 0 <= s && s < 60;
  ensures 60 * m + s == 60 * minutes + seconds + 1;
{
  m, s := minutes, seconds + 1;
  if (s == 60) {
    m, s := m + 1, 0;
  }
}

procedure Minute(minutes: int) returns (m: int, s: int)
  requires 0 <= minutes;
  ensures m == minutes + 1;
  ensures s == 0;
{
  var i: int;
  m, s, i := minutes, 0, 0;
  while (i < 60)
    invariant 0 <= i && i <= 60;
    invariant 0 <= m && 0 <= s && s < 60;
    invariant 60 * m + s == 60 * minutes + i;
  {
    call m, s := Tick(m, s);
    i := i + 1;
  }
}
