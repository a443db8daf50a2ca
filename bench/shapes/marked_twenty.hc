int a[20];
int main() {
  for (int r = 0; r < 5000; r++) { pfor (int i = 0; i < 20; i++) { a[i] = a[i] + r; } }
  print(a[2]);
  return 0;
}
