// The sieve of Eratosthenes: each prime strikes out its multiples in a marked loop,
// whose turns write different elements of one array.
int struck[10000];

int main() {
  int below = 10000;
  for (int p = 2; p * p < below; p++) {
    if (!struck[p]) {
      pfor (int m = p * p; m < below; m += p) struck[m] = 1;
    }
  }

  // the primes below 100, then how many there are below 10000
  int count = 0;
  for (int n = 2; n < below; n++) {
    if (!struck[n]) {
      if (n < 100) print(n);
      count++;
    }
  }
  print(count);
  return 0;
}
