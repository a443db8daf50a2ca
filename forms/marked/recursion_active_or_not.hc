// A recursive function with a region, called from a region and outside of one.
// Whole turns: 14.
int g;

int walk(int n, int s) {
  pfor (int i = 0; i < n; i++) { s += i; g++; }
  if (n > 1) s = walk(n - 1, s * 2);
  return s;
}

int main() {
  print(walk(4, 1));
  print(g);
  pfor (int i = 0; i < 4; i++) print(walk(i, i));
  print(g);
  return 0;
}
