int c[200];
int gcd(int x, int y) { if (y == 0) { return x; } return gcd(y, x % y); }
int main() {
  for (int r = 0; r < 5; r++) { pfor (int i = 0; i < 200; i++) { int n = 0; for (int j = 1; j < 20; j++) { if (gcd(i, j) == 1) { n = n + 1; } } c[i] = n; } }
  print(c[30]);
  return 0;
}
