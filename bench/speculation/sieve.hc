// Primes below 20000, a turn for each number whose multiples are crossed out.
int crossed[20000];
int main() {
  pfor (int n = 2; n < 142; n++) {
    if (crossed[n] == 0)
      for (int k = n * n; k < 20000; k += n) crossed[k] = 1;
  }
  int primes = 0;
  for (int n = 2; n < 20000; n++) if (crossed[n] == 0) primes++;
  print(primes);
  return 0;
}
