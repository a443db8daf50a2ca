// Each assignment, to a local from further out, in the turns of a `pwhile`.
// Whole turns: 3.
int g = 1;
int a[8] = {3, 1, 4, 1, 5, 9, 2, 6};

int main() {
  int k = 0, s = 10;
  pwhile (k < 3) {
    s = s + k + 100; print(s);
    s += 7 + k; print(s);
    s -= 3 * k; print(s);
    s *= 5; print(s);
    s /= 2; print(s);
    s %= 97; print(s);
    s <<= k + 1; print(s);
    s >>= 1; print(s);
    s &= 117; print(s);
    s ^= 9 + k; print(s);
    s |= 64; print(s);
    s = -s; print(s);
    s = k - s; print(s);
    s += s; print(s);
    k++;
  }
  print(s);
  print(g);
  print(k);
  return 0;
}
