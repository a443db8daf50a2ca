// Each assignment, to a global, in the turns of a `pfor`.
// Whole turns: 3.
int g = 1;
int a[8] = {3, 1, 4, 1, 5, 9, 2, 6};

int main() {
  int s = 10;
  pfor (int k = 0; k < 3; k++) {
    g = g + k + 100; print(g);
    g += 7 + k; print(g);
    g -= 3 * k; print(g);
    g *= 5; print(g);
    g /= 2; print(g);
    g %= 97; print(g);
    g <<= k + 1; print(g);
    g >>= 1; print(g);
    g &= 117; print(g);
    g ^= 9 + k; print(g);
    g |= 64; print(g);
    g = -g; print(g);
    g = k - g; print(g);
    g += g; print(g);
  }
  print(s);
  print(g);
  return 0;
}
