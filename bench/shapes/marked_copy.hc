int a[1000];
int b[1000];
int main() {
  for (int r = 0; r < 400; r = r + 1) {
    pfor (int i = 0; i < 1000; i++) { a[i] = b[i]; }
  }
  print(a[999]);
  return 0;
}
