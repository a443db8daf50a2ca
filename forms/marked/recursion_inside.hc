// A function that calls itself from its marked loop: the outermost call alone has a region.
// Whole turns: 2.
int g;

int tree(int n) {
  int s = 1;
  pfor (int i = 0; i < 2; i++) {
    if (n > 0) s += tree(n - 1 - i);
    g++;
    s += i;
  }
  return s + n * 100;
}

int main() {
  print(tree(4));
  print(g);
  return 0;
}
