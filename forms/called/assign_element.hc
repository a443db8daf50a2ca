// Each assignment, to elements of an array, in a function that the turns of a `pfor` call.
// Whole turns: 3.
int g = 1;
int a[8] = {3, 1, 4, 1, 5, 9, 2, 6};

int work(int k, int s) {
  a[k] = a[k] + 40; print(a[k]);
  a[k + 1] += 7 + s; print(a[k + 1]);
  a[k + 1] -= a[k]; print(a[k + 1]);
  a[k + 2] *= 5 - k; print(a[k + 2]);
  a[k + 2] /= 2; print(a[k + 2]);
  a[7 - k] %= 4 + k; print(a[7 - k]);
  a[6] <<= k + 1; print(a[6]);
  a[6] >>= 1; print(a[6]);
  a[k] &= 45; print(a[k]);
  a[k + 3] ^= s; print(a[k + 3]);
  a[a[6] & 7] |= 64 + k; print(a[a[6] & 7]);
  a[a[7] - a[7]] += a[a[6] & 3]; print(a[0]);
  return s;
}

int main() {
  int s = 10;
  pfor (int k = 0; k < 3; k++) {
    s = work(k, s);
    print(s);
  }
  print(s);
  print(g);
  for (int i = 0; i < 8; i++) print(a[i]);
  return 0;
}
