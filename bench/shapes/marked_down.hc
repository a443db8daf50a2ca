int a[1000];
int main() {
  for (int r = 0; r < 200; r++) { pfor (int i = 999; i >= 0; i--) { a[i] = a[i] + i; } }
  print(a[999]);
  return 0;
}
