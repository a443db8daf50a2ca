// `break` and `continue` at three depths, the middle loop marked.
// Whole turns: 10.
int main() {
  int s = 0;
  for (int i = 1; i < 7; i++) {
    int m = 0;
    pwhile (m < 4) {
      m++;
      for (int j = 0; ; j++) {
        if (j == m) continue;
        if (j > i) break;
        s += 100 * i + 10 * j + m;
      }
      if (m == 2) continue;
      print(s);
      if (s > 4000) break;
      s++;
    }
    if (i == 2) continue;
    print(-s);
    if (i == 4) break;
  }
  print(s);
  return 0;
}
