// Declarations of locals, in a function that the turns of a `pfor` call.
// Whole turns: 3.
int g = 1;
int a[8] = {3, 1, 4, 1, 5, 9, 2, 6};

int work(int k, int s) {
  int x = k + 1, y = x * 10, z;
  z = y + x;
  {
    int x = z + 1, u;
    u = x + y;
    x += u;
    print(x);
    s += x;
  }
  int w = s - x;
  print(w);
  for (int x = w, n = 0; n < 2; n++) {
    int y = x + n;
    x += y;
    print(x);
  }
  print(x + y + z);
  return s;
}

int main() {
  int s = 10;
  pfor (int k = 0; k < 3; k++) {
    s = work(k, s);
    print(s);
  }
  print(s);
  print(g);
  return 0;
}
