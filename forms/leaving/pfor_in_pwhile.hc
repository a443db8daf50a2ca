// `break` and `continue` at both depths of a `pfor` in a `pwhile`.
// Whole turns: 6.
int main() {
  int n = 0, s = 0;
  pwhile (n < 20) {
    n++;
    if (n == 3) continue;
    pfor (int j = n; ; j--) {
      if (j == 4) continue;
      if (j == 0) break;
      s = s * 2 + j;
    }
    print(s);
    if (n == 7) break;
  }
  print(n);
  return 0;
}
