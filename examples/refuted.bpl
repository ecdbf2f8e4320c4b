procedure Wish(a: bool) {
  assert a == true;
}
