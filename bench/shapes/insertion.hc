int a[300];
int main() {
  int seed = 7;
  for (int i = 0; i < 300; i++) { seed = (seed * 1103 + 12345) % 65536; a[i] = seed; }
  for (int i = 1; i < 300; i++) {
    int x = a[i];
    int j = i - 1;
    while (j >= 0 && a[j] > x) { a[j + 1] = a[j]; j = j - 1; }
    a[j + 1] = x;
  }
  print(a[0]); print(a[150]); print(a[299]);
  return 0;
}
