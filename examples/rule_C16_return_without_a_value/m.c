int add(int a, int b) {
  if (a < b) return;
  return a + b;
}
