procedure Q() returns (r: bool);
  ensures r;
implementation Q() returns (s: bool)
{
  s := true;
}
implementation Q() returns (r: bool)
{
  r := false;
}
