// A parameter is the counter, and is returned.
// Whole turns: 11.
int sum;

int f(int n, int least) {
  pfor (n = n * 2; n > least; n -= 3) sum += n;
  return n;
}

int main() {
  print(f(5, 1));
  print(f(10, -4));
  print(f(1, 2));
  print(sum);
  return 0;
}
