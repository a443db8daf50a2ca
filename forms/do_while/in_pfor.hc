// `break` and `continue` at both depths of a `do` in a `pfor`.
// Whole turns: 5.
int a[10];

int main() {
  int s = 0;
  pfor (int i = 0; i < 9; i++) {
    int j = 0;
    do {
      j++;
      if (j == 2) continue;
      if (j > i) break;
      a[j] += i;
      s += i * 10 + j;
    } while (j < 6);
    if (i == 3) continue;
    print(s);
    if (s > 350) break;
    s += j;
  }
  print(s);
  for (int i = 0; i < 10; i++) print(a[i]);
  return 0;
}
