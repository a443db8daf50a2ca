// `break` out of a `pfor`, from blocks and `if`s.
// Whole turns: 4.
int main() {
  int s = 0;
  pfor (int i = 0; i < 9; i++) {
    {
      int x = i * 2;
      if (x > 3) {
        { { if (x == 8) { print(x); break; } else { s += x; } } }
        s += 100;
      } else s++;
    }
    print(s);
  }
  print(s);
  return 0;
}
