int a[200];
int b[200];
int d[40401];
int main() {
  int seed = 7;
  for (int i = 0; i < 200; i++) { seed = (seed * 1103 + 12345) % 65536; a[i] = seed % 4; }
  for (int i = 0; i < 200; i++) { seed = (seed * 1103 + 12345) % 65536; b[i] = seed % 4; }
  for (int i = 1; i <= 200; i++) {
    for (int j = 1; j <= 200; j++) {
      if (a[i - 1] == b[j - 1]) d[i * 201 + j] = d[(i - 1) * 201 + j - 1] + 1;
      else {
        int u = d[(i - 1) * 201 + j];
        int v = d[i * 201 + j - 1];
        if (u > v) d[i * 201 + j] = u; else d[i * 201 + j] = v;
      }
    }
  }
  print(d[40400]);
  return 0;
}
