// Declarations of locals, in the turns of a `pwhile`.
// Whole turns: 3.
int g = 1;
int a[8] = {3, 1, 4, 1, 5, 9, 2, 6};

int main() {
  int k = 0, s = 10;
  pwhile (k < 3) {
    int x = k + 1, y = x * 10, z;
    z = y + x;
    {
      int x = z + 1, u;
      u = x + y;
      x += u;
      print(x);
      s += x;
    }
    int w = s - x;
    print(w);
    for (int x = w, n = 0; n < 2; n++) {
      int y = x + n;
      x += y;
      print(x);
    }
    print(x + y + z);
    k++;
  }
  print(s);
  print(g);
  print(k);
  return 0;
}
