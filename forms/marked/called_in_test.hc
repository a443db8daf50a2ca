// Functions with marked loops, called in the test and the step of a marked loop.
// Whole turns: 3.
int g;

int count(int n) {
  int c = 0;
  pfor (int i = 0; i < n; i++) { c += 2; g++; }
  return c;
}

int main() {
  pfor (int i = 0; count(i) < 9; i += count(1)) print(i);
  print(g);
}
