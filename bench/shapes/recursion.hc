int sum(int n) { if (n == 0) { return 0; } return n + sum(n - 1); }
int main() {
  int t = 0;
  for (int r = 0; r < 2000; r++) { t = t + sum(50); }
  print(t);
  return 0;
}
