// As an argument, and in one, with operands that wait.
int three(int a, int b, int c) {
  return a * 100 + b * 10 + c;
}

int main() {
  int x = 4;
  print(three(x ? 1 : 2, x > 4 ? 3 : 4, x < 4 ? 5 : 6));
  print(1 + (2 + (x ? 3 + (x > 3 ? 4 : 5) : 6)));
  print(three(1, three(0, x & 4 ? 1 : 0, 2) % 10, x ? three(0, 0, x) : 0));
  print(x + (x ? x * (x - 4 ? 1 : 2) : 3) - (0 ? 1 : x));
  return 0;
}
