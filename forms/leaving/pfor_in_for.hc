// `break` and `continue` at both depths of a `pfor` in a `for`.
// Whole turns: 14.
int main() {
  int s = 0;
  for (int i = 0; i < 6; i++) {
    if (i == 1) continue;
    pfor (int j = 0; j < 6; j++) {
      if (j == 1) continue;
      if (j > i) break;
      s += i * 10 + j;
    }
    print(s);
    if (i == 4) break;
    s++;
  }
  print(s);
  return 0;
}
