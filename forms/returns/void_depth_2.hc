// A void function returns out of a `for` in its `pwhile`.
// Whole turns: 15.
int g;

void fill(int x) {
  pwhile (g < 100) {
    g += 5;
    for (int i = 0; i < x; i++) {
      g += i;
      if (g > 40 + x) return;
    }
    print(g);
  }
  print(-g);
}

int main() {
  fill(3);
  fill(1);
  print(g);
  fill(0);
  print(g);
  return 0;
}
