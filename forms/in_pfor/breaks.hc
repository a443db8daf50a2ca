// `break` and `continue` in plain loops, in the turns of a `pfor`.
// Whole turns: 3.
int g = 1;
int a[8] = {3, 1, 4, 1, 5, 9, 2, 6};

int main() {
  int s = 10;
  pfor (int k = 0; k < 3; k++) {
    for (int i = 0; i < 5; i++) { if (i == k + 1) break; print(i); }
    for (int i = 0; i < 5; i++) { if (i == k + 1) continue; s += i; }
    print(s);
    int n = 0;
    while (n < 6) { n++; if (n == 2) continue; if (n == 4 + k) break; print(n * 10); }
    print(n);
    for (;;) { n--; if (n > k) continue; break; }
    print(n);
    while (1) {
      while (1) { n++; if (n > 4) break; }
      n += 10;
      if (n > 20) break; else continue;
    }
    print(n);
    for (int i = 0; i < 4; i++) {
      if (i == 1) { g += 10; continue; }
      for (int j = 0; ; j++) { if (j == i) { g++; break; } if (j == k) continue; g += 100; }
    }
  }
  print(s);
  print(g);
  return 0;
}
