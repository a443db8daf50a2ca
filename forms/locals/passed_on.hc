// Carried locals as arguments and results of functions that the turns call.
// Whole turns: 5.
int g;
int next_of(int x, int y) { x = x * 3 + y; g = x; y = 0; return x - g / 2 + y; }

int main() {
  int x = 1, y = 2;
  pfor (int i = 0; i < 5; i++) {
    x = next_of(y, x);
    y += next_of(x, i) % 100;
    print(x);
    print(y);
  }
  print(x); print(y); print(g);
}
