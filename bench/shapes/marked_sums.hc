int g[6400];
int s[80];
int main() {
  for (int i = 0; i < 6400; i++) g[i] = i % 13;
  for (int r = 0; r < 30; r++) {
    pfor (int y = 0; y < 80; y++) {
      int t = 0;
      for (int x = 0; x < 80; x++) t = t + g[y * 80 + x];
      s[y] = t;
    }
  }
  print(s[79]);
  return 0;
}
