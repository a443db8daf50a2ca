int f(int x) { return x * 3 + 1; }
int main() {
  int s = 0;
  int i = 0;
  pwhile (i < 200000) { s = s + f(i % 100); i = i + 1; }
  print(s);
  return 0;
}
