// The longest Collatz sequence in each block of 256 starts, a turn for each block.
int longest[256];
int length(int start) {
  int n = start;
  int steps = 0;
  while (n != 1) {
    if (n % 2 == 0) n = n / 2;
    else n = 3 * n + 1;
    steps++;
  }
  return steps;
}
int main() {
  pfor (int block = 0; block < 256; block++) {
    int best = 0;
    for (int k = 1; k <= 256; k++) {
      int steps = length(block * 256 + k);
      if (steps > best) best = steps;
    }
    longest[block] = best;
  }
  int most = 0;
  for (int block = 0; block < 256; block++) if (longest[block] > most) most = longest[block];
  print(most);
  return 0;
}
