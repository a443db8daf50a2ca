// Each assignment, to a local from further out, in a function that the turns of a `pfor` call.
// Whole turns: 3.
int g = 1;
int a[8] = {3, 1, 4, 1, 5, 9, 2, 6};

int work(int k, int s) {
  s = s + k + 100; print(s);
  s += 7 + k; print(s);
  s -= 3 * k; print(s);
  s *= 5; print(s);
  s /= 2; print(s);
  s %= 97; print(s);
  s <<= k + 1; print(s);
  s >>= 1; print(s);
  s &= 117; print(s);
  s ^= 9 + k; print(s);
  s |= 64; print(s);
  s = -s; print(s);
  s = k - s; print(s);
  s += s; print(s);
  return s;
}

int main() {
  int s = 10;
  pfor (int k = 0; k < 3; k++) {
    s = work(k, s);
    print(s);
  }
  print(s);
  print(g);
  return 0;
}
