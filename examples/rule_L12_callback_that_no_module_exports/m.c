extern void note(int v);

int sum(int n) {
  int s = 0;
  for (int i = 0; i < n; i++) {
    s += i;
    note(s);
  }
  return s;
}
