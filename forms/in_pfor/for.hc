// `for`, with each of its clauses left out, in the turns of a `pfor`.
// Whole turns: 3.
int g = 1;
int a[8] = {3, 1, 4, 1, 5, 9, 2, 6};

int main() {
  int s = 10;
  pfor (int k = 0; k < 3; k++) {
    for (int i = k; i < 3; i++) print(i);
    int i = 0;
    for (; i < k + 2; i++) s += i;
    print(i);
    for (i = 5; i > k;) i -= 2;
    print(i);
    for (int j = 0; ; j += 2) { if (j > k + 3) break; print(j); }
    for (;;) { i++; if (i > 6) break; }
    print(i);
    for (; i > 2;) { i -= 3; s++; }
    for (i += 4; ; ) { i++; if (i > 9) break; }
    for (int p = 0, q = 9; p < q; p += 3) { q--; s += p * q; }
    print(s);
    for (g = 0; g < k + 1; g++) ;
    print(g);
    for (a[0] = k; a[0] < 4; a[0]++) s++;
    for (i = 0; i < 0; i++) print(300);
    for (int u = 0; u < 2; u++) for (int v = u; v < 2; v++) print(u * 10 + v + k);
  }
  print(s);
  print(g);
  for (int i = 0; i < 8; i++) print(a[i]);
  return 0;
}
