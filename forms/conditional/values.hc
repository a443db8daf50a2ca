// A test that isn't 0, and one that is.
int main() {
  print(1 ? 2 : 3);
  print(0 ? 2 : 3);
  print(-1 ? -2 : -3);
  int x = 5;
  print(x ? x : 0);
  print(x > 5 ? 1 : x == 5 ? 2 : 3);
  print((x ? 10 : 20) + (x - 5 ? 1 : 2));
  x = x < 3 ? x : -x;
  print(x);
  x += x < 0 ? 100 : 200;
  print(x);
  return 0;
}
