int s[1000];
int f(int x) { return x * 3 + 1; }
int main() {
  for (int r = 0; r < 400; r = r + 1) {
    pfor (int i = 0; i < 1000; i = i + 1) { s[i] = f(i); }
  }
  print(s[999]);
  return 0;
}
