// A recursive function with a region behind its call of itself: each call has a region of its own.
// Whole turns: 15.
int g;

int down(int n) {
  if (n == 0) return 1;
  int s = down(n - 1);
  pfor (int i = 0; i < n; i++) { s += i * n; g++; }
  print(s);
  return s;
}

int main() {
  print(down(5));
  print(g);
  return 0;
}
