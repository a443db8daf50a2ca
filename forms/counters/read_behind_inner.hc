// The body reads the counter behind inner loops, which have counters of their own.
// Whole turns: 4.
int main() {
  int total = 0;
  pfor (int i = 1; i <= 4; i++) {
    int t = 0;
    for (int j = 0; j < i; j++) t += j;
    pfor (int j = 0; j < i; j++) t += i;
    total += t * i;
    print(i * 100 + t);
  }
  print(total);
  return 0;
}
