int a[10000];
int main() {
  for (int r = 0; r < 20; r++) {
    pfor (int i = 0; i < 100; i++) { for (int j = 0; j < 100; j++) { a[i * 100 + j] = a[i * 100 + j] + i * j; } }
  }
  print(a[9999]);
  return 0;
}
