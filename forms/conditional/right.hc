// To the right, and what stands between `?` and `:` as if in parentheses.
int choose(int a, int b, int c) {
  return a ? b ? 1 : 2 : c ? 3 : 4;
}

int sign(int n) {
  return n < 0 ? -1 : n > 0 ? 1 : 0;
}

int main() {
  for (int i = 0; i < 8; i++) print(choose(i & 4, i & 2, i & 1));
  for (int i = -2; i < 3; i++) print(sign(i));
  print(0 ? 1 : 0 ? 2 : 0 ? 3 : 4);
  print(1 ? 0 ? 1 : 2 : 3);
  print((0 ? 1 : 0) ? 5 : 6);
  return 0;
}
