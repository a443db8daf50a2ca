int s[1000];
int f(int x, int y, int z) { return x * y + z; }
int main() {
  for (int r = 0; r < 100; r++) { pfor (int i = 0; i < 1000; i++) { s[i] = f(i, r, s[i]); } }
  print(s[999]);
  return 0;
}
