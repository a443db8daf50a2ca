int f(int x) { return x * 3 + 1; }
int main() {
  int s = 0;
  for (int r = 0; r < 200; r++) { pfor (int i = 0; i < 1000; i++) { s = s + f(i); } }
  print(s);
  return 0;
}
