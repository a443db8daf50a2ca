// Sums of divisors of the numbers below 1,500, a marked number a turn.
int main() {
  int found = 0;
  pfor (int n = 2; n < 1500; n++) {
    int s = 1;
    int d = 2;
    while (d * d <= n) {
      if (n % d == 0) { s += d; if (d * d != n) s += n / d; }
      d++;
    }
    if (s == n) { print(n); found++; }
    if (s > n) found += 2;
  }
  print(found);
  return 0;
}
