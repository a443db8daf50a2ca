// Searches that return from the middle of a marked loop: the first turn that finds something
// gives the answer, and no later turn leaves a trace.
int table[1000];
int probes;

// the first place of a number in the table, or -1
int place_of(int wanted) {
  pfor (int i = 0; i < 1000; i++) {
    probes++;
    if (table[i] == wanted) return i;
  }
  return -1;
}

// the least divisor of n above 1
int least_divisor(int n) {
  pfor (int d = 2; d * d <= n; d++) {
    if (n % d == 0) return d;
  }
  return n;
}

int main() {
  for (int i = 0; i < 1000; i++) table[i] = (i * 7919 + 13) % 1009;

  print(place_of(500));
  print(probes);
  print(place_of(1009));
  print(probes);
  print(least_divisor(8633));
  print(least_divisor(8641));
  return 0;
}
