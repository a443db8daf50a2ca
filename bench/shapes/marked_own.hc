int a[1000];
int b[1000];
int main() {
  for (int i = 0; i < 1000; i++) { a[i] = i % 13; }
  for (int r = 0; r < 100; r++) {
    pfor (int i = 0; i < 1000; i++) { int t = a[i]; int u = t * t; b[i] = u + t; }
  }
  print(b[77]);
  return 0;
}
