int a[8];
int main() {
  for (int i = 0; i < 8; i++) { a[i] = i; }
  int s = 0;
  for (int r = 0; r < 10000; r++) {
    int n = 2 + r % 5;
    pfor (int i = 0; i < n; i++) { s = s + a[i]; }
  }
  print(s);
  return 0;
}
