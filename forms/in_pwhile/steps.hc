// `++` and `--`, in the turns of a `pwhile`.
// Whole turns: 3.
int g = 1;
int a[8] = {3, 1, 4, 1, 5, 9, 2, 6};

int main() {
  int k = 0, s = 10;
  pwhile (k < 3) {
    int x = k;
    x++; print(x);
    x--; x--; print(x);
    s++; s++; print(s);
    s--; print(s);
    g--; g--; g--; print(g);
    g++; print(g);
    a[k]++; a[k]++; print(a[k]);
    a[(a[k] + k) & 7]--;
    for (x = 4; x > k; x--) s++;
    print(x);
    k++;
  }
  print(s);
  print(g);
  for (int i = 0; i < 8; i++) print(a[i]);
  print(k);
  return 0;
}
