// `return` from `main` out of a plain loop, behind regions.
// Whole turns: 6.
int main() {
  int s = 0;
  for (int i = 0; i < 9; i++) {
    pfor (int j = 0; j < 3; j++) s += i + j;
    print(s);
    if (i == 1) return s;
  }
  return 0;
}
