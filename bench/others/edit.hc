// The edit distance of two sequences of 300, a marked row a turn; the least of three by calls.
int a[300]; int b[300]; int d[90601];
int least(int x, int y) { if (x < y) return x; return y; }
int main() {
  for (int i = 0; i < 300; i++) { a[i] = (i * 17) % 23; b[i] = (i * 13) % 19; }
  for (int i = 0; i <= 300; i++) { d[i] = i; d[i * 301] = i; }
  pfor (int i = 1; i <= 300; i++) {
    for (int j = 1; j <= 300; j++) {
      int c = 1;
      if (a[i - 1] == b[j - 1]) c = 0;
      d[i * 301 + j] = least(least(d[(i - 1) * 301 + j] + 1, d[i * 301 + j - 1] + 1), d[(i - 1) * 301 + j - 1] + c);
    }
  }
  print(d[90600]);
  return 0;
}
