// Each assignment, to elements of an array, outside any region.
// Whole turns: 0.
int g = 1;
int a[8] = {3, 1, 4, 1, 5, 9, 2, 6};

int main() {
  int k = 2, s = 10;
  a[k] = a[k] + 40; print(a[k]);
  a[k + 1] += 7 + s; print(a[k + 1]);
  a[k + 1] -= a[k]; print(a[k + 1]);
  a[k + 2] *= 5 - k; print(a[k + 2]);
  a[k + 2] /= 2; print(a[k + 2]);
  a[7 - k] %= 4 + k; print(a[7 - k]);
  a[6] <<= k + 1; print(a[6]);
  a[6] >>= 1; print(a[6]);
  a[k] &= 45; print(a[k]);
  a[k + 3] ^= s; print(a[k + 3]);
  a[a[6] & 7] |= 64 + k; print(a[a[6] & 7]);
  a[a[7] - a[7]] += a[a[6] & 3]; print(a[0]);
  print(s);
  print(g);
  for (int i = 0; i < 8; i++) print(a[i]);
  print(k);
  return 0;
}
