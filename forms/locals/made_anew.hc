// Locals of the body are made anew in each turn; those of an inner loop in each of its turns.
// Whole turns: 3.
int main() {
  int n = 2;
  pfor (int i = 0; i < 3; i++) {
    int x = 5, y;
    y = x + i;
    x += y;
    for (int j = 0; j < 2; j++) { int z = 1; z += x; x = z * n; y = z; }
    print(x);
    print(y);
    { int w = 3; w *= x; n++; print(w); }
  }
  print(n);
}
