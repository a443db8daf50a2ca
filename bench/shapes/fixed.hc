int a[4];
int main() {
  for (int i = 0; i < 100000; i++) {
    a[0] = i;
    a[1] = a[0] + a[2];
    a[2] = a[1] % 1000;
  }
  print(a[2]);
  return 0;
}
