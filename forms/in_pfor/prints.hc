// `print` and `emit`, in the turns of a `pfor`.
// Whole turns: 3.
int g = 1;
int a[8] = {3, 1, 4, 1, 5, 9, 2, 6};

int main() {
  int s = 10;
  pfor (int k = 0; k < 3; k++) {
    print(k); print(-k); print(s * 1000003); print(0);
    print(2147483647); print(-2147483647 - 1);
    emit(65 + k); emit(10); emit(266); emit(-1 - k); emit(0); emit(256 + 66); emit(128);
    print(((k + s)));
    emit(34); emit(92); emit(39); emit(13); emit(9);
    print(a[k]);
    emit(a[k] + 48);
  }
  print(s);
  print(g);
  return 0;
}
