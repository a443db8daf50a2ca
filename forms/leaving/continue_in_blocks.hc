// `continue` in a `pwhile`, from blocks and `if`s.
// Whole turns: 7.
int a[8];

int main() {
  int n = 0;
  pwhile (n < 7) {
    int m = n;
    n++;
    { if (m % 3 == 1) { { a[m] = 10; continue; } a[m] = 20; } else if (m % 3 == 2) { a[m] = 30; { continue; } } }
    a[m] += m + 1;
    print(m);
  }
  for (int i = 0; i < 8; i++) print(a[i]);
  return 0;
}
