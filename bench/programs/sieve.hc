// Primes below 60000 by the sieve of Eratosthenes, twenty times.
int composite[60000];

int main() {
  int found = 0;
  int round;
  for (round = 0; round < 20; round++) {
    int i;
    for (i = 2; i < 60000; i++) composite[i] = 0;
    for (i = 2; i * i < 60000; i++) {
      if (composite[i] == 0) {
        int j;
        for (j = i * i; j < 60000; j += i) composite[j] = 1;
      }
    }
    found = 0;
    for (i = 2; i < 60000; i++) if (composite[i] == 0) found++;
  }
  print(found);
  return 0;
}
