// A marked loop in a `do`, left in each way.
// Whole turns: 9.
int a[8];

int main() {
  int n = 0;
  do {
    pfor (int i = 0; i < 4; i++) {
      if (i == n) continue;
      if (i > n + 1) break;
      a[i] += n + 1;
    }
    n++;
    if (n == 2) continue;
    if (a[0] > 4) break;
    print(a[0] + a[1] * 10 + a[2] * 100 + a[3] * 1000);
  } while (n < 3);
  print(n);
  for (int i = 0; i < 8; i++) print(a[i]);
  return 0;
}
