// `break` and `continue` at three depths, each loop marked.
// Whole turns: 4.
int main() {
  int s = 0;
  pfor (int i = 0; i < 7; i++) {
    pfor (int j = 0; j < 4; j++) {
      int n = 0;
      pwhile (1) {
        n++;
        if (n == 2) continue;
        if (n > i) break;
        s += 100 * i + 10 * j + n;
      }
      if (j == 1) continue;
      print(s);
      if (j == i) break;
      s++;
    }
    if (i == 1) continue;
    print(-s);
    if (i == 4) break;
  }
  print(s);
  return 0;
}
