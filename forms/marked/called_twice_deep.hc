// A marked loop in a function that a function called from a region calls.
// Whole turns: 4.
int g;

void mark(int n) { pwhile (n > 0) { n -= 2; g = g * 2 + n; } }
int between(int n) {
  for (int i = 0; i < n; i++) mark(i + 1);
  mark(n);
  return g;
}

int main() {
  pfor (int i = 0; i < 4; i++) { print(between(i)); mark(i); }
  print(g);
  return 0;
}
