int odd(int n) { if (n == 0) { return 0; } return even(n - 1); }
int even(int n) { if (n == 0) { return 1; } return odd(n - 1); }
int main() {
  int t = 0;
  for (int r = 0; r < 2000; r++) { t = t + even(r % 50); }
  print(t);
  return 0;
}
