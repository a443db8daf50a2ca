// Declarations of locals, in the turns of a `pfor`.
// Whole turns: 3.
int g = 1;
int a[8] = {3, 1, 4, 1, 5, 9, 2, 6};

int main() {
  int s = 10;
  pfor (int k = 0; k < 3; k++) {
    int x = k + 1, y = x * 10, z;
    z = y + x;
    {
      int x = z + 1, u;
      u = x + y;
      x += u;
      print(x);
      s += x;
    }
    int w = s - x;
    print(w);
    for (int x = w, n = 0; n < 2; n++) {
      int y = x + n;
      x += y;
      print(x);
    }
    print(x + y + z);
  }
  print(s);
  print(g);
  return 0;
}
