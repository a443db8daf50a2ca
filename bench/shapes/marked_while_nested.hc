int g(int x) { return x * 2; }
int f(int x) { return g(x) + 1; }
int main() {
  int s = 0;
  for (int r = 0; r < 30; r++) { int i = 0; pwhile (i < 1000) { s = s + f(i); i = i + 1; } }
  print(s);
  return 0;
}
