// Regions one behind another, and marked loops one behind another in a region.
// Whole turns: 14.
int a[6];

int main() {
  int s = 0;
  pfor (int i = 0; i < 6; i++) a[i] = i * i;
  pfor (int i = 5; i >= 3; i--) {
    pfor (int j = 0; j < i; j++) a[j] += a[i];
    pwhile (a[i] > 9) { a[i] -= 9; s++; }
    pfor (int j = i; j < 6; j++) s += a[j];
    print(s);
  }
  pwhile (s > 10) s -= 8;
  print(s);
  for (int i = 0; i < 6; i++) print(a[i]);
}
