// `pwhile`, in a function that the turns of a `pfor` call.
// Whole turns: 3.
int g = 1;
int a[8] = {3, 1, 4, 1, 5, 9, 2, 6};

int work(int k, int s) {
  int n = k;
  pwhile (n < 3) { print(n); n++; }
  pwhile (n > 5) print(200);
  pwhile (g < 6 + k) g += k + 1;
  print(g);
  int m = 0;
  pwhile (m < 3) { int j = m * 2; m++; if (m == 2) continue; s += j + k; }
  print(s);
  pwhile (1) { s += 3; if (s > 40 * k) break; print(s); }
  pwhile (a[k] < 9) { pwhile (a[k] < 7) a[k] += n; a[k]++; }
  return s;
}

int main() {
  int s = 10;
  pfor (int k = 0; k < 3; k++) {
    s = work(k, s);
    print(s);
  }
  print(s);
  print(g);
  for (int i = 0; i < 8; i++) print(a[i]);
  return 0;
}
