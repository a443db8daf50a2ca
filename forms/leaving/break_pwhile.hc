// `break` out of a `pwhile`.
// Whole turns: 5.
int c;

int main() {
  int n = 0;
  pwhile (1) {
    n++;
    c += n;
    if (c > 20) break;
    print(c);
  }
  print(n);
  print(c);
  return n;
}
