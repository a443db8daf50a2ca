int main() {
  int x = 27;
  int n = 0;
  for (int r = 0; r < 2000; r = r + 1) {
  x = r + 1;
  pwhile (x != 1) { if (x % 2 == 0) { x = x / 2; } else { x = 3 * x + 1; } n = n + 1; }
  }
  print(n);
  return 0;
}
