int a[1000];
int main() {
  int found = 0;
  for (int i = 0; i < 1000; i++) a[i] = i;
  for (int r = 0; r < 200; r++) {
    int k = 0;
    pwhile (1) {
      if (a[k] == 990) { found = k; break; }
      k = k + 1;
    }
  }
  print(found);
  return 0;
}
