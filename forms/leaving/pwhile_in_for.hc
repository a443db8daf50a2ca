// `break` and `continue` at both depths of a `pwhile` in a `for`.
// Whole turns: 8.
int main() {
  int s = 0;
  for (int i = 0; ; i++) {
    int j = i;
    pwhile (j > 0) {
      j--;
      if (j == 2) continue;
      if (s > 60) break;
      s += i + 10 * j;
    }
    print(s);
    if (i == 2) continue;
    s++;
    if (i == 5) break;
  }
  print(s);
  return 0;
}
