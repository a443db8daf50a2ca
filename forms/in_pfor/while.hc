// `while`, in the turns of a `pfor`.
// Whole turns: 3.
int g = 1;
int a[8] = {3, 1, 4, 1, 5, 9, 2, 6};

int main() {
  int s = 10;
  pfor (int k = 0; k < 3; k++) {
    int n = k;
    while (n < 3) { print(n); n++; }
    while (n > 5) print(200);
    while (n < 8) n += 3;
    print(n);
    while (s < 20 + k) s += 4;
    int m = 0;
    while (m < 2) {
      int j = 0;
      while (j < m + k) { g += j + 1; j++; }
      m++;
    }
    print(g);
    while (0) print(201);
    while (n) { n--; if (n == 4) n = 0; else s++; }
    print(n);
    while (a[k] < 9) a[k] += a[k + 1] + 1;
  }
  print(s);
  print(g);
  for (int i = 0; i < 8; i++) print(a[i]);
  return 0;
}
