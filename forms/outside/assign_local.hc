// Each assignment, to a local, outside any region.
// Whole turns: 0.
int g = 1;
int a[8] = {3, 1, 4, 1, 5, 9, 2, 6};

int main() {
  int k = 2, s = 10;
  int x = k;
  x = x + k + 100; print(x);
  x += 7 + k; print(x);
  x -= 3 * k; print(x);
  x *= 5; print(x);
  x /= 2; print(x);
  x %= 97; print(x);
  x <<= k + 1; print(x);
  x >>= 1; print(x);
  x &= 117; print(x);
  x ^= 9 + k; print(x);
  x |= 64; print(x);
  x = -x; print(x);
  x = k - x; print(x);
  s += x;
  x += x; print(x);
  print(s);
  print(g);
  print(k);
  return 0;
}
