// Sixty calls under way in a region, with a marked loop in each.
// Whole turns: 2.
int g;

int sum(int n) {
  if (n == 0) return g;
  int s = 0;
  pfor (int i = 0; i < 2; i++) { if (i) s += sum(n - 1); else g++; }
  return s + n;
}

int main() {
  pfor (int i = 0; i < 2; i++) print(sum(60 + i));
  return 0;
}
