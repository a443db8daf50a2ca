int a[1000];
int main() {
  int m = 0;
  for (int i = 0; i < 1000; i++) a[i] = (i * 7919) % 1009;
  for (int r = 0; r < 200; r++) {
    m = 0;
    pfor (int i = 0; i < 1000; i++) { if (a[i] > m) m = a[i]; }
  }
  print(m);
  return 0;
}
