int a[64];
int main() {
  for (int i = 0; i < 64; i++) { a[i] = (i * 37) % 64; }
  int t = 0;
  for (int r = 0; r < 10000; r++) {
    int k = r % 60;
    int n = 0;
    pwhile (n < 4) { t = t + a[k]; k = k + 1; n = n + 1; }
  }
  print(t);
  return 0;
}
