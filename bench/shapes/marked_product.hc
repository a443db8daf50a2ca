int a[3600];
int b[3600];
int c[3600];
int main() {
  for (int i = 0; i < 3600; i++) { a[i] = i % 7; b[i] = i % 5; }
  for (int i = 0; i < 60; i++) {
    for (int j = 0; j < 60; j++) {
      int s = 0;
      pfor (int k = 0; k < 60; k++) { s = s + a[i * 60 + k] * b[k * 60 + j]; }
      c[i * 60 + j] = s;
    }
  }
  print(c[61]);
  return 0;
}
