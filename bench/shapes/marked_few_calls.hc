int a[10];
int f(int x) { return x + 1; }
int main() {
  for (int r = 0; r < 10000; r++) { pfor (int i = 0; i < 5; i++) { a[i] = f(a[i]); } }
  print(a[2]);
  return 0;
}
