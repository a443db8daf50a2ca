// A parameter that a region assigns, and that is used behind it.
// Whole turns: 9.
int f(int n) {
  pwhile (n < 100) n = n * 2 + 1;
  return n - 100;
}

int main() {
  print(f(3));
  print(f(40));
  print(f(100));
  print(f(99) + f(63));
  return 0;
}
