// `break` and `continue` at both depths of a `while` in a `pwhile`.
// Whole turns: 4.
int c;

int main() {
  int n = 0;
  pwhile (c < 1000) {
    c += 3;
    int m = 0;
    while (1) {
      m++;
      if (m % 2) { n++; continue; }
      c += m;
      if (m > n) break;
    }
    print(c);
    print(m);
    if (n < 9) continue;
    c *= 2;
    if (n > 20) break;
  }
  print(n);
  print(c);
  return 0;
}
