// Sums of 30,000 numbers from the first on, and the best difference, in three marked loops.
int a[30000]; int s[30000];
int main() {
  pfor (int i = 0; i < 30000; i++) a[i] = i * 7919 % 1000;
  s[0] = a[0];
  pfor (int i = 1; i < 30000; i++) s[i] = s[i - 1] + a[i];
  int best = 0;
  int low = 0;
  pfor (int i = 0; i < 30000; i++) {
    int v = s[i] - 499 * i;
    if (v - low > best) best = v - low;
    if (v < low) low = v;
  }
  print(best);
  return 0;
}
