// `break` and `continue` at both depths of a `pwhile` in a `pfor`.
// Whole turns: 3.
int main() {
  int s = 0;
  pfor (int i = 1; i < 9; i++) {
    int j = 0;
    pwhile (j < 9) {
      j++;
      if (j == 2) continue;
      if (j > i) break;
      s += i * 10 + j;
    }
    if (i == 3) continue;
    print(s);
    if (s > 200) { s = -s; break; }
    s += j;
  }
  print(s);
  return 0;
}
