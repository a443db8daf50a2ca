// Thirty generations of a game of life on 64 by 64 cells, a marked row a turn.
int g[4096]; int h[4096];
int main() {
  for (int i = 0; i < 4096; i++) g[i] = (i * 7 + i / 3) % 5 == 0;
  for (int t = 0; t < 30; t++) {
    pfor (int y = 1; y < 63; y++) {
      for (int x = 1; x < 63; x++) {
        int p = y * 64 + x;
        int n = g[p - 65] + g[p - 64] + g[p - 63] + g[p - 1] + g[p + 1] + g[p + 63] + g[p + 64] + g[p + 65];
        if (n == 3) h[p] = 1;
        else if (n == 2) h[p] = g[p];
        else h[p] = 0;
      }
    }
    pfor (int i = 0; i < 4096; i++) g[i] = h[i];
  }
  int s = 0;
  for (int i = 0; i < 4096; i++) s += g[i];
  print(s);
  return 0;
}
