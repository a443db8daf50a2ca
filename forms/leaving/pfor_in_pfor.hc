// `break` and `continue` at both depths of a `pfor` in a `pfor`.
// Whole turns: 5.
int main() {
  int s = 0;
  pfor (int i = 0; i < 9; i++) {
    if (i == 2) continue;
    pfor (int j = 0; j < 9; j++) {
      if (j == 1) continue;
      if (j > i) break;
      s += i * 10 + j;
      print(s);
    }
    if (i == 5) break;
    s++;
  }
  print(s);
  return 0;
}
