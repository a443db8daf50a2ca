// A recursive function whose region carries its parameter and a local, and returns out of it.
// Whole turns: 14.
int depth(int n, int left) {
  int d = 0;
  pwhile (n > 1) {
    if (n % 2) { n = 3 * n + 1; if (left > 0) return d + depth(n, left - 1); }
    n /= 2;
    d++;
  }
  return d * 10 + left;
}

int main() {
  print(depth(1, 5));
  print(depth(8, 5));
  print(depth(7, 2));
  print(depth(7, 0));
  print(depth(27, 20));
  return 0;
}
