// A knapsack of 2,000 with 60 things, marked from its end.
int best[2001];
int main() {
  for (int k = 1; k <= 60; k++) {
    int w = k * 13 % 47 + 5;
    int v = k * 29 % 101;
    pfor (int c = 2000; c >= w; c--) {
      int t = best[c - w] + v;
      if (t > best[c]) best[c] = t;
    }
  }
  print(best[2000]);
  return 0;
}
