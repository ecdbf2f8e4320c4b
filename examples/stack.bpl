// A stack: entries below `height` count, those above are left behind. The topmost one is a place below `height`.
var items: [int]int;
var height: int;

procedure Push(v: int)
  requires height >= 0;
  modifies items, height;
  ensures height == old(height) + 1 && items == old(items)[old(height) := v];
{
  items[height] := v;
  height := height + 1;
}

procedure Pop() returns (v: int)
  requires height > 0;
  modifies height;
  ensures height == old(height) - 1 && v == items[height];
{
  height := height - 1;
  v := items[height];
}

procedure Add()
  requires height >= 2;
  modifies items, height;
  ensures height == old(height) - 1;
  ensures items[height - 1] == old(items[height - 1] + items[height - 2]);
  ensures height >= 2 ==> items[height - 2] == old(items)[height - 2];
{
  var a, b: int;
  call a := Pop();
  call b := Pop();
  call Push(a + b);
}

procedure Double()
  requires height > 0;
  modifies items, height;
  ensures height == old(height) + 1 && items[height - 1] == items[height - 2];
{
  items[height] := items[height];
  height := height + 1;
}
