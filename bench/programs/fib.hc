// Fibonacci numbers by two calls each.
int fib(int n) {
  if (n < 2) return n;
  return fib(n - 1) + fib(n - 2);
}

int main() {
  print(fib(29));
  return 0;
}
