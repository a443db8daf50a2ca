int n;
int main() {
  n = 1000;
  int s = 0;
  for (int r = 0; r < 200; r++) {
    for (int i = 0; i < n; i++) { s = s + i; }
  }
  print(s);
  return 0;
}
