// A `pfor` in a `do` in a `pfor`: the inner one is no region, and its turns don't count.
// Whole turns: 3.
int a[4];

int main() {
  pfor (int i = 0; i < 3; i++) {
    int j = 0;
    do {
      pfor (int k = 0; k < 4; k++) {
        if (k == i) continue;
        a[k] += j + 1;
        if (a[k] > 5) break;
      }
      j++;
      if (j == 2) continue;
      if (a[0] > 8) break;
    } while (j < 3);
    print(a[0] + 10 * a[1]);
  }
  for (int k = 0; k < 4; k++) print(a[k]);
  return 0;
}
