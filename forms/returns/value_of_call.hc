// `return` out of a region, of a value that calls a function with a region of its own.
// Whole turns: 9.
int sum_to(int n) {
  int s = 0;
  pfor (int i = 1; i <= n; i++) s += i;
  return s;
}

int first_over(int x) {
  pfor (int i = 0; ; i++) {
    if (i * i > x) return sum_to(i) * 10 + i;
  }
}

int main() {
  print(sum_to(4));
  print(first_over(20));
  return 0;
}
