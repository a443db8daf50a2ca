// `return` with a value and without, outside any region.
// Whole turns: 0.
int g = 1;
int a[8] = {3, 1, 4, 1, 5, 9, 2, 6};

int sign(int x) { if (x < 0) return -1; if (x > 0) { return 1; } else return 0; }
void note(int x) {
  g += x;
  if (x == 2) return;
  print(x);
  { if (x == 3) { return; } }
  print(x * 10);
  return;
}
int place_over(int x) {
  for (int i = 0; i < 8; i++) if (a[i] > x) return i;
  return -1;
}
int until(int x) {
  while (1) {
    for (;;) { x++; if (x % 5 == 0) return x; if (x % 3 == 0) break; }
    g++;
  }
  return 99;
}

int main() {
  int k = 2, s = 10;
  print(sign(k - 1));
  print(sign(-k));
  note(k);
  note(k + 1);
  print(place_over(k + 1));
  print(place_over(9));
  s += until(k);
  s += sign(s) + until(place_over(k));
  print(s);
  print(g);
  print(k);
  return 0;
}
