// `break` and `continue` at both depths of a `pwhile` in a `while`.
// Whole turns: 8.
int c = 1;

int main() {
  int n = 0;
  while (1) {
    pwhile (c % 7) {
      c++;
      if (c == 5) { n += 10; continue; }
      if (c % 4 == 0) break;
      n++;
    }
    print(c);
    c++;
    if (c < 9) continue;
    print(n);
    if (c > 14) break;
  }
  return n;
}
