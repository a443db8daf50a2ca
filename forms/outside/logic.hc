// `&&` and `||`, which skip their right sides, outside any region.
// Whole turns: 0.
int g = 1;
int a[8] = {3, 1, 4, 1, 5, 9, 2, 6};

int told(int x) { print(x + 1000); return x; }

int main() {
  int k = 2, s = 10;
  print(told(k) && told(1));
  print(told(k) || told(2));
  print(told(0) || told(k) && told(3));
  print((told(k) || told(0)) && told(k - 1));
  print(told(k) && told(0) || told(k - 2));
  if (k == 1 && told(7)) s++;
  if (k == 1 || told(8)) s += 2; else s -= 50;
  if (!(k && s)) print(1);
  while (told(k) && s < 14) s += 2;
  int x = (k && 5) + (s || 0) * 2;
  print(x);
  print(3 && 2 && k);
  print(0 || 0 || k);
  a[k && 1] += k || told(9);
  g += k && s;
  g *= told(k) || x > 2 && !k;
  print(s);
  print(g);
  for (int i = 0; i < 8; i++) print(a[i]);
  print(k);
  return 0;
}
