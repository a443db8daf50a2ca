int g[10000];
int h[10000];
int main() {
  for (int i = 0; i < 10000; i++) g[i] = i % 7;
  for (int r = 0; r < 10; r++) {
    for (int y = 1; y < 99; y++)
      for (int x = 1; x < 99; x++) {
        int p = y * 100 + x;
        h[p] = g[p - 101] + g[p - 100] + g[p - 99] + g[p - 1] + g[p + 1] + g[p + 99] + g[p + 100] + g[p + 101];
      }
    for (int i = 0; i < 10000; i++) g[i] = h[i] % 7;
  }
  int sum = 0;
  for (int i = 0; i < 10000; i++) sum += g[i];
  print(sum);
  return 0;
}
