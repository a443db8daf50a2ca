// A sort of 4,000 numbers by four digits, each digit's numbers counted, with marked copies.
int a[4000];
int b[4000];
int count[17];
int main() {
  int seed = 3;
  for (int i = 0; i < 4000; i++) { seed = (seed * 1309 + 13849) % 65536; a[i] = seed; }
  for (int shift = 0; shift < 16; shift += 4) {
    for (int k = 0; k < 17; k++) count[k] = 0;
    for (int i = 0; i < 4000; i++) count[((a[i] >> shift) & 15) + 1]++;
    for (int k = 0; k < 16; k++) count[k + 1] += count[k];
    for (int i = 0; i < 4000; i++) {
      int d = (a[i] >> shift) & 15;
      b[count[d]] = a[i];
      count[d] = count[d] + 1;
    }
    pfor (int i = 0; i < 4000; i++) a[i] = b[i];
  }
  print(a[0]); print(a[1999]); print(a[3999]);
  return 0;
}
