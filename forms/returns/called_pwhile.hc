// A function returns carried locals out of its `pwhile`.
// Whole turns: 16.
int power(int base, int past) {
  int p = 1, n = 0;
  pwhile (1) {
    if (p > past) return p + n;
    p *= base;
    n++;
  }
}

int main() {
  print(power(2, 100));
  print(power(3, 0));
  print(power(7, 2400) - power(10, 99999));
  return 0;
}
