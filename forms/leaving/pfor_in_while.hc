// `break` and `continue` at both depths of a `pfor` in a `while`.
// Whole turns: 14.
int main() {
  int n = 0, s = 0;
  while (n < 9) {
    n++;
    pfor (int j = 0; j < 9; j += 2) {
      if (j == n) continue;
      if (j > n + 1) break;
      s = s * 3 + j;
    }
    if (n == 2) continue;
    print(s);
    if (n == 5) break;
  }
  print(n);
  return 0;
}
