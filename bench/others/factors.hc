// Sums of prime factors of the numbers below 3,000.
int main() {
  int best = 0; int where = 0;
  for (int n = 2; n < 3000; n++) {
    int x = n; int sum = 0; int d = 2;
    while (d * d <= x) {
      while (x % d == 0) { sum += d; x = x / d; }
      d++;
    }
    if (x > 1) sum += x;
    if (sum * 3 < n) { best += sum; where = n; }
  }
  print(best); print(where);
  return 0;
}
