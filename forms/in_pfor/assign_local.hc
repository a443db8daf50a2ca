// Each assignment, to a local, in the turns of a `pfor`.
// Whole turns: 3.
int g = 1;
int a[8] = {3, 1, 4, 1, 5, 9, 2, 6};

int main() {
  int s = 10;
  pfor (int k = 0; k < 3; k++) {
    int x = k;
    x = x + k + 100; print(x);
    x += 7 + k; print(x);
    x -= 3 * k; print(x);
    x *= 5; print(x);
    x /= 2; print(x);
    x %= 97; print(x);
    x <<= k + 1; print(x);
    x >>= 1; print(x);
    x &= 117; print(x);
    x ^= 9 + k; print(x);
    x |= 64; print(x);
    x = -x; print(x);
    x = k - x; print(x);
    s += x;
    x += x; print(x);
  }
  print(s);
  print(g);
  return 0;
}
