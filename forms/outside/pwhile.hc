// `pwhile`, outside any region.
// Whole turns: 29.
int g = 1;
int a[8] = {3, 1, 4, 1, 5, 9, 2, 6};

int main() {
  int k = 2, s = 10;
  int n = k;
  pwhile (n < 3) { print(n); n++; }
  pwhile (n > 5) print(200);
  pwhile (g < 6 + k) g += k + 1;
  print(g);
  int m = 0;
  pwhile (m < 3) { int j = m * 2; m++; if (m == 2) continue; s += j + k; }
  print(s);
  pwhile (1) { s += 3; if (s > 40 * k) break; print(s); }
  pwhile (a[k] < 9) { pwhile (a[k] < 7) a[k] += n; a[k]++; }
  print(s);
  print(g);
  for (int i = 0; i < 8; i++) print(a[i]);
  print(k);
  return 0;
}
