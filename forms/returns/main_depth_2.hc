// `return` from `main` out of a `for` in a `pfor`.
// Whole turns: 2.
int main() {
  int s = 0;
  pfor (int i = 0; i < 9; i++) {
    for (int j = 0; j < 4; j++) {
      s += i * j;
      print(s);
      if (s > 7) return s;
    }
  }
  print(0);
  return 0;
}
