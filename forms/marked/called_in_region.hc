// A function with a marked loop, called from a region, and called outside of one.
// Whole turns: 12.
int g;

int sum_to(int n) {
  int s = 0;
  pfor (int i = 1; i <= n; i++) { s += i; g++; }
  return s;
}

int main() {
  print(sum_to(4));
  pfor (int i = 0; i < 3; i++) print(sum_to(i * 2) + i);
  print(sum_to(5));
  print(g);
  return 0;
}
