// A quick sort of 5,000 numbers by recursion, and a marked checksum.
int a[5000];
void sort(int lo, int hi) {
  if (lo >= hi) return;
  int p = a[(lo + hi) / 2];
  int i = lo;
  int j = hi;
  while (i <= j) {
    while (a[i] < p) i++;
    while (a[j] > p) j--;
    if (i <= j) { int t = a[i]; a[i] = a[j]; a[j] = t; i++; j--; }
  }
  sort(lo, j);
  sort(i, hi);
}
int main() {
  int s = 12345;
  for (int i = 0; i < 5000; i++) { s = (s * 75 + 74) % 65537; a[i] = s; }
  sort(0, 4999);
  int c = 0;
  pfor (int i = 0; i < 5000; i++) c = (c * 3 + a[i]) % 10007;
  print(c);
  return 0;
}
