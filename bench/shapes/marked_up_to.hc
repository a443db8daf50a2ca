int main() {
  int s = 0;
  int n = 200000;
  pfor (int i = 1; i <= n; i++) { s = s + i % 3; }
  print(s);
  return 0;
}
