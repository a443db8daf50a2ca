// The Collatz walk: how many steps each start below 3000 takes to come to 1, and which takes the most.
// Each turn of the marked loop walks for one start.
int steps[3000];

int main() {
  pfor (int start = 1; start < 3000; start++) {
    int n = start;
    int count = 0;
    while (n != 1) {
      if (n & 1) n = 3 * n + 1; else n >>= 1;
      count++;
    }
    steps[start] = count;
  }

  int best = 1;
  for (int start = 2; start < 3000; start++) {
    if (steps[start] > steps[best]) best = start;
  }
  print(best);
  print(steps[best]);
  return 0;
}
