// Counters of a `pfor` that are a global, an element or a local from further out, or that the body changes.
// Whole turns: 21.
int g;
int a[3] = {5, 6, 7};

int main() {
  int n;
  pfor (g = 3; g < 6; g++) print(g);
  print(g);
  pfor (a[1] = 2; a[1]; a[1]--) a[0] += a[1];
  print(a[0]);
  pfor (n = 0; n * n < 17; n++) ;
  print(n);
  pfor (int i = 0; i < 20; i++) { i += i; print(i); }
  pfor (int i = 10, j = 0; i > j; j += 2) { i--; print(i * 10 + j); }
  pfor (; n > 3; ) n--;
  print(n);
}
