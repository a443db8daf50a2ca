int a[100];
int sum(int from, int to) {
  int s = 0;
  pfor (int i = from; i < to; i++) { s = s + a[i]; }
  return s;
}
int main() {
  for (int i = 0; i < 100; i++) { a[i] = i % 7; }
  int t = 0;
  for (int r = 0; r < 10000; r++) { t = t + sum(r % 90, r % 90 + 4); }
  print(t);
  return 0;
}
