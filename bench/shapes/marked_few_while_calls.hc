int f(int x) { return x + 1; }
int main() {
  int s = 0;
  for (int r = 0; r < 10000; r++) {
    int i = 0;
    pwhile (i < 12) { s = s + f(i); i = i + 1; }
  }
  print(s);
  return 0;
}
