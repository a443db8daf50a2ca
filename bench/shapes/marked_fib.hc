int out[20];
int fib(int n) { if (n < 2) { return n; } return fib(n - 1) + fib(n - 2); }
int main() {
  for (int r = 0; r < 30; r++) { pfor (int i = 0; i < 12; i++) { out[i] = fib(i); } }
  print(out[11]);
  return 0;
}
