procedure Keep(a: bool) {
  var b: bool;
  b := a;
  assert a == b;
}

procedure Turn() {
  var c: bool;
  assert c == false;
  c := true;
  assert c;
}
