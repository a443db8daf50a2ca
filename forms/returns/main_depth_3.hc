// `return` from `main` out of a `while` in a `pfor` in a `for`.
// Whole turns: 12.
int main() {
  int s = 0;
  for (int i = 0; i < 9; i++) {
    pfor (int j = 0; j < 4; j++) {
      int n = i;
      while (n > 0) {
        n--;
        s += n;
        if (s > 5) { print(s); { return i * 100 + j * 10 + n; } }
      }
    }
    print(s);
  }
  return 0;
}
