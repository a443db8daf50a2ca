int a[400];
int main() {
  for (int i = 0; i < 400; i++) a[i] = (i * 7919) % 1009;
  for (int n = 400; n > 1; n--)
    for (int i = 1; i < n; i++)
      if (a[i - 1] > a[i]) { int t = a[i]; a[i] = a[i - 1]; a[i - 1] = t; }
  print(a[0]); print(a[399]);
  return 0;
}
