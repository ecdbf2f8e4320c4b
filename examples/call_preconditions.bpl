procedure Q(x: bool);
  requires x;
procedure C()
{
  call Q(true);
  call Q(false);
}
