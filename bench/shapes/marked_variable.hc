int n = 1000;
int a[1000];
int main() {
  for (int r = 0; r < 300; r++) { pfor (int i = 0; i < n; i++) { a[i] = a[i] * 3 + i; } }
  print(a[999]);
  return 0;
}
