// `break` out of a `pfor`.
// Whole turns: 4.
int main() {
  int s = 0;
  pfor (int i = 0; i < 9; i++) {
    s += 10;
    if (i == 4) break;
    s += i;
    print(i);
  }
  print(s);
}
