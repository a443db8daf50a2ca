// A `do` in a `pwhile`: what it assigns is carried, what it declares isn't.
// Whole turns: 6.
int main() {
  int n = 1;
  int s = 0;
  int step = 3;
  pwhile (n < 60) {
    int k = 0;
    do {
      int d = k * step;
      k++;
      if (d % 2) continue;
      s += d;
      if (s > n) break;
    } while (k < 5);
    n = n * 2 + (s & 1);
    print(s);
  }
  print(n);
  print(s);
  return 0;
}
