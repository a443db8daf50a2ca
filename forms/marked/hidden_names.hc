// Locals in a region that hide outer names, also those of functions and arrays.
// Whole turns: 3.
int g = 7;
int a[2] = {1, 2};
int f(int x) { return x + 1; }

int main() {
  int s = 0;
  pfor (int i = 0; i < 3; i++) {
    int t = f(i) + a[i & 1];
    int f = t * 2;
    int a = f + g;
    {
      int s = a + 1;
      int g = s * 2;
      int i = g;
      s += i;
      print(s);
    }
    s += a;
    pfor (int g = 0; g < 2; g++) { int s = g; s++; print(s + f); }
  }
  print(s);
  print(g);
  print(f(a[1]));
}
