int a[8];
int main() {
  int s = 0;
  for (int r = 0; r < 20000; r++) {
    pfor (int i = 0; i < 1; i++) { s = s + a[i] + r; }
  }
  print(s);
  return 0;
}
