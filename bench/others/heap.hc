// Five sorts of 2,000 numbers by a heap, a call for each number.
int h[2001];
int n;
int sift(int i) {
  int x = h[i];
  while (2 * i <= n) {
    int c = 2 * i;
    if (c < n) { if (h[c + 1] > h[c]) c = c + 1; }
    if (h[c] <= x) break;
    h[i] = h[c];
    i = c;
  }
  h[i] = x;
  return i;
}
int main() {
  int seed = 7;
  int check = 0;
  for (int r = 0; r < 5; r++) {
    n = 2000;
    for (int i = 1; i <= 2000; i++) { seed = (seed * 1309 + 13849) % 65536; h[i] = seed; }
    for (int i = 1000; i > 0; i--) sift(i);
    while (n > 1) { int t = h[1]; h[1] = h[n]; h[n] = t; n = n - 1; sift(1); }
    check = (check + h[1] + h[1000] + h[2000]) % 1000003;
  }
  print(check);
  return 0;
}
