// Calls, as statements and in expressions, outside any region.
// Whole turns: 0.
int g = 1;
int a[8] = {3, 1, 4, 1, 5, 9, 2, 6};

int twice(int x) { return 2 * x; }
void note(int x) { g = g * 3 + x; print(g); }
int next_one(void) { g++; return g; }
int least(int x, int y) { if (x < y) return x; return y; }
int all(int p, int q, int r, int s, int t, int u, int v, int w) { return p - q + 2 * r - 3 * s + 5 * t - 7 * u + 11 * v - 13 * w; }
void nothing() { }

int main() {
  int k = 2, s = 10;
  note(k);
  twice(s);
  next_one();
  print(g);
  s = twice(twice(k) + 1) + s;
  print(s);
  print(least(k, s) - least(s, 1));
  print(least(twice(k) + 1, next_one()));
  note(least(a[k], a[k + 1]));
  print(a[least(k, 7)] + twice(a[twice(k)]));
  print(all(1, -2, 3, -4, k, s, g, a[k]));
  if (twice(k) > 1) note(twice(-k));
  for (int i = twice(k); i < twice(3); i = i + twice(1)) nothing();
  print(s);
  print(g);
  print(k);
  return 0;
}
