int a[1024];
int find(int x) {
  int lo = 0;
  int hi = 1024;
  while (lo < hi) {
    int mid = (lo + hi) / 2;
    if (a[mid] < x) lo = mid + 1; else hi = mid;
  }
  return lo;
}
int main() {
  for (int i = 0; i < 1024; i++) a[i] = i * 3;
  int s = 0;
  for (int k = 0; k < 20000; k++) s = s + find(k % 3072);
  print(s);
  return 0;
}
