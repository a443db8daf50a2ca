// `break` and `continue` at three depths, the innermost loop marked.
// Whole turns: 54.
int main() {
  int s = 0, n = 0;
  while (n < 5) {
    n++;
    for (int j = 0; j < 5; j++) {
      if (j == n) continue;
      pfor (int i = 0; ; i++) {
        if (i == j) continue;
        if (i > n) break;
        s += 100 * n + 10 * j + i;
      }
      if (s % 3 == 0) { s++; continue; }
      print(s);
      if (j > n) break;
    }
    if (n == 2) continue;
    print(-s);
    if (n == 4) break;
  }
  print(s);
  return 0;
}
