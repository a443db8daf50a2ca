// Empty statements and blocks, in the turns of a `pwhile`.
// Whole turns: 3.
int g = 1;
int a[8] = {3, 1, 4, 1, 5, 9, 2, 6};

int main() {
  int k = 0, s = 10;
  pwhile (k < 3) {
    ;
    { }
    { ; ; { } }
    { int s = k; { int k = s + 5; s = k * 2; print(k); print(s); } print(s); }
    print(s);
    { { { s += k; } } g += s; }
    if (k) { } else { ; }
    for (int i = 0; i < 2; i++) { }
    for (int i = 0; i < 2; i++) ;
    { int t = s; { int t = 3; s += t; } s += t; { int t = k; s -= t; } }
    print(s);
    k++;
  }
  print(s);
  print(g);
  print(k);
  return 0;
}
