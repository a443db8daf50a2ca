// `return` from `main` out of a `pwhile`, of a negative number.
// Whole turns: 4.
int c = 3;

int main(void) {
  int s = 1;
  pwhile (1) {
    s *= c;
    c--;
    print(s);
    if (c < -1) return c - 2147483646;
  }
}
