// Primes below 12,000 by trial division, a marked call for each.
int prime(int n) {
  for (int d = 2; d * d <= n; d++) if (n % d == 0) return 0;
  return 1;
}
int main() {
  int c = 0;
  pfor (int n = 2; n < 12000; n++) { if (prime(n)) c++; }
  print(c);
  return 0;
}
