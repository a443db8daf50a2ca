// A recursive function without marked loops, called in the turns and in the test.
// Whole turns: 8.
int calls;

int fib(int n) {
  calls++;
  if (n < 2) return n;
  int a = fib(n - 1);
  return a + fib(n - 2);
}

int main() {
  int n = 0;
  pwhile (fib(n) < 20) { print(fib(n)); n++; }
  print(n);
  print(calls);
  return 0;
}
