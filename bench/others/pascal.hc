// Rows of Pascal's triangle, marked from their end, from one turn to 99.
int c[201];
int main() {
  for (int r = 0; r < 40; r++) {
    c[0] = 1;
    for (int k = 1; k < 200; k++) c[k] = 0;
    for (int n = 1; n < 100; n++) {
      pfor (int k = n; k > 0; k--) c[k] = (c[k] + c[k - 1]) % 1009;
    }
  }
  print(c[50]);
  return 0;
}
