// Each operator, outside any region.
// Whole turns: 0.
int g = 1;
int a[8] = {3, 1, 4, 1, 5, 9, 2, 6};

int main() {
  int k = 2, s = 10;
  int x = 17 * (k + 1), y = 5 - k * 3, z = y;
  print(x + y); print(x - y); print(x * y); print(x / y); print(x % y); print(-x / y); print(-x % y);
  print(x << k); print(-x >> k); print(x & y); print(x | y); print(x ^ y); print(-x & y | 1 ^ s);
  print(~x); print(!x); print(!!y); print(- -y); print(-~x); print(!~x);
  print(x < y); print(x <= y); print(x > y); print(x >= y); print(x == y); print(x != y);
  print(y < z); print(y <= z); print(y > z); print(y >= z); print(y == z); print(y != z);
  print(2147483647 + k); print((2147483647 - k) * 3); print(-(-2147483647 - k));
  print(x - y - k); print(x - (y - k)); print(100 / 7 / 2); print(100 / (7 / 2)); print(x % 7 * 3);
  print(x + y * k - x / 3 % 4 << 1 & 255 | s ^ 3);
  print(1 < 2 == 1); print((x < y) + (y < x) * 2); print(3 > 2 > 1); print(1 << 2 + k); print(64 >> 1 << 2);
  s += x * y;
  print(s);
  print(g);
  print(k);
  return 0;
}
