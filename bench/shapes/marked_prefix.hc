int a[1000];
int main() {
  for (int r = 0; r < 400; r = r + 1) {
    pfor (int i = 1; i < 1000; i++) { a[i] = a[i - 1] + i; }
  }
  print(a[999]);
  return 0;
}
