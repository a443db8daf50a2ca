// `print` and `emit`, outside any region.
// Whole turns: 0.
int g = 1;
int a[8] = {3, 1, 4, 1, 5, 9, 2, 6};

int main() {
  int k = 2, s = 10;
  print(k); print(-k); print(s * 1000003); print(0);
  print(2147483647); print(-2147483647 - 1);
  emit(65 + k); emit(10); emit(266); emit(-1 - k); emit(0); emit(256 + 66); emit(128);
  print(((k + s)));
  emit(34); emit(92); emit(39); emit(13); emit(9);
  print(a[k]);
  emit(a[k] + 48);
  print(s);
  print(g);
  print(k);
  return 0;
}
