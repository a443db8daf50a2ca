int a[10];
int main() {
  for (int r = 0; r < 10000; r++) { pfor (int i = 0; i < 10; i++) { a[i] = a[i] + r; } }
  print(a[2]);
  return 0;
}
