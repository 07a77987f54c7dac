long dead(void) { return 7; }
long main(void) {
  __out(72);
  __out(105);
  __out(10);
  return 0;
}
