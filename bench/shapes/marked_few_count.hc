int a[16];
int main() {
  for (int i = 0; i < 16; i++) { a[i] = i % 3; }
  int c = 0;
  for (int r = 0; r < 10000; r++) {
    pfor (int i = 0; i < 6; i++) { if (a[i] == 1) { c++; } }
  }
  print(c);
  return 0;
}
