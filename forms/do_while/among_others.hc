// A `do` in a `while` and in a `for`, and both in a `do`.
int main() {
  int s = 0;
  int i = 0;
  while (i < 4) {
    int j = i;
    do {
      if (j == 3) break;
      s += j;
      j++;
    } while (j < 5);
    i++;
  }
  print(s);
  for (int a = 0; a < 4; a++) {
    int b = 0;
    do {
      b++;
      if (b == a) continue;
      s = s * 3 + b;
      s %= 1000;
    } while (b < 3);
    if (a == 2) continue;
    print(s);
  }
  int x = 0;
  do {
    for (int y = 0; y < 5; y++) {
      if (y == x) continue;
      if (y > 3) break;
      s += y;
    }
    int z = 0;
    while (z < x) {
      z++;
      if (z == 2) continue;
      s -= z;
    }
    x++;
    if (s > 1050) break;
  } while (x < 9);
  print(s);
  print(x);
  return 0;
}
