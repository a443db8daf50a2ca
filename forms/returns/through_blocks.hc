// `return` out of a region from blocks, `if`s and `else`s.
// Whole turns: 8.
int g;

int sort_of(int x) {
  pfor (int i = 0; ; i++) {
    { g++; if (x == i) { { return 100 + i; } } else if (x < 0) return 200; else { if (i > 4) { g += 10; return 300; } } }
    { ; }
  }
}

int main() {
  print(sort_of(0));
  print(sort_of(3));
  print(sort_of(-1));
  print(sort_of(9));
  print(g);
  return 0;
}
