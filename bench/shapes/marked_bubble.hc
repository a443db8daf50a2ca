int a[200];
int main() {
  for (int i = 0; i < 200; i++) a[i] = (i * 7919) % 211;
  for (int r = 0; r < 200; r++) {
    pfor (int i = 0; i < 199; i++) { if (a[i] > a[i + 1]) { int t = a[i]; a[i] = a[i + 1]; a[i + 1] = t; } }
  }
  print(a[0]);
  print(a[199]);
  return 0;
}
