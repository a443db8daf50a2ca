int h(int x) { return x * 2; }
int g(int x) { return h(x) + 1; }
int f(int x) { return g(x) + 3; }
int main() {
  int s = 0;
  for (int r = 0; r < 30; r++) { for (int i = 0; i < 1000; i++) { s = s + f(i); } }
  print(s);
  return 0;
}
