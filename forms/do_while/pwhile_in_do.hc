// A `pwhile` in a `do`, and a `do` in that.
// Whole turns: 9.
int c;

int main() {
  int i = 0;
  do {
    int t = 0;
    pwhile (t < 3) {
      int u = 0;
      do {
        c += t + u;
        u++;
      } while (u < i);
      t++;
    }
    print(c);
    i++;
  } while (i < 3);
  return 0;
}
