// `if` and `else`, outside any region.
// Whole turns: 0.
int g = 1;
int a[8] = {3, 1, 4, 1, 5, 9, 2, 6};

int main() {
  int k = 2, s = 10;
  if (k == 0) print(100);
  if (k > 1) print(101); else print(102);
  if (k == 0) { s += 1; print(s); } else if (k == 1) { s += 2; print(s); } else { s += 3; print(s); }
  if (k > 0) if (k > 1) print(103); else print(104);
  if (k > 0) { if (k > 1) print(105); } else print(106);
  if (k) ; else print(107);
  if (s - k) { } else print(108);
  if (a[k] > 2) { int x = s * 2; g += x; } else g = g - k;
  print(g);
  if (k == 1) while (s < 20) if (s % 2) s += 3; else s += 5;
  if (s < 20) for (int i = 0; i < 2; i++) { if (i == k) s++; } else s += 100;
  print(s);
  print(g);
  print(k);
  return 0;
}
