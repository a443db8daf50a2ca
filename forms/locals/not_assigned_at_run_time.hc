// Locals that a region would carry and doesn't come to assign.
// Whole turns: 8.
int f(int p) {
  int q = p * 3, r = 70;
  pfor (int i = 0; i < 4; i++) {
    if (i == p) r = i;
    if (p > 100) { p = 0; q = 0; }
    while (p < 0) { q++; break; }
  }
  print(r);
  return p + q;
}

int main() {
  print(f(2));
  print(f(50));
  return 0;
}
