// Marked loops in the arms of `if`s, in a region and outside.
// Whole turns: 7.
int g;

int main() {
  for (int k = 0; k < 2; k++) {
    if (k) pfor (int i = 0; i < 2; i++) g += 10; else pwhile (g < 3) g++;
    print(g);
  }
  pfor (int k = 0; k < 2; k++) {
    if (k) { pfor (int i = 0; i < 2; i++) g += 100; } else { int m = 4; pwhile (m) { m--; g += m; } }
    print(g);
  }
  return 0;
}
