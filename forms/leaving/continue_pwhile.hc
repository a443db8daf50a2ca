// `continue` in a `pwhile` goes on with its test.
// Whole turns: 6.
int main() {
  int n = 0, s = 0;
  pwhile (n < 6) {
    n++;
    if (n == 3) continue;
    print(n);
    s += n;
  }
  print(s);
}
