// Turns that swap carried locals, and that leave by `break` with some of them assigned.
// Whole turns: 14.
int main() {
  int x = 1, y = 1000, t = 0;
  pfor (int i = 0; i < 5; i++) { t = x; x = y; y = t; x += i; }
  print(x); print(y); print(t);
  pwhile (1) {
    t = y - x;
    if (t > 0 && t < 5) break;
    x = y;
    y -= t / 2;
    if (y == x) { y = 7; break; }
    print(y);
  }
  print(x); print(y); print(t);
}
