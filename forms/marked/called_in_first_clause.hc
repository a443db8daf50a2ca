// A function with a marked loop in the first clause of a marked loop: the latter is not active yet.
// Whole turns: 7.
int g;

int count(int n) {
  int c = 0;
  pfor (int i = 0; i < n; i++) { c += 3; g += c; }
  return c;
}

int main() {
  pfor (int i = count(4); i > 3; i -= count(1)) print(i + g);
  print(g);
}
