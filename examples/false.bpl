procedure False() {
  assert false;
}
