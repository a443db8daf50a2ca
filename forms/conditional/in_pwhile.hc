// In the test and the turns of a `pwhile`.
// Whole turns: 7.
int main() {
  int n = 3;
  int steps = 0;
  pwhile (n == 1 ? 0 : 1) {
    n = n % 2 ? 3 * n + 1 : n / 2;
    steps++;
    print(n);
  }
  print(steps);
  return 0;
}
