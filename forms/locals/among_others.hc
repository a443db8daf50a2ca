// Carried and copied locals among locals of neither kind, in every order.
// Whole turns: 4.
int main() {
  int a = 1, b = 2, c = 3, d = 4, e = 5, f = 6, g = 7;
  b += a;
  pfor (int i = 0; i < 4; i++) {
    int h = c + i;
    e = e + h;
    a = a * 2 + g;
    print(h);
  }
  print(a); print(b); print(c); print(d); print(e); print(f); print(g);
  int h = a - e;
  print(h);
}
