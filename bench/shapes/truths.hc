int main() {
  int n = 0;
  for (int i = 0; i < 100000; i++) {
    int inside = i > 10 && i < 500;
    int chosen = i == 3 || i == 7000;
    n = n + inside + chosen;
  }
  print(n);
  return 0;
}
