// A function that calls itself from its marked loop and from behind it.
// Whole turns: 20.
int g;

int both(int n, int way) {
  int s = n;
  if (n <= 0) return way;
  if (way % 2) s += both(n - 1, way + 1);
  pwhile (s % 5) {
    s++;
    g++;
    if (g % 3 == 0) s += both(n - 2, s) % 7;
    if (n == 1) { way += s; break; }
  }
  return s + both(n - 1, way);
}

int main() {
  print(both(3, 1));
  print(g);
  print(both(4, 0));
  print(g);
  return 0;
}
