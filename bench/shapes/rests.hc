int main() {
  int n = 0;
  int k = 77;
  for (int i = 0; i < 100000; i++) {
    if (i % 3) { n++; }
    if (i - 5) { n++; }
    if (i ^ k) { n++; }
  }
  print(n);
  return 0;
}
