// Loops that `break` leaves, from a block and from an inner `if`, and their counters behind them.
// Whole turns: 7.
int a[10] = {3, 1, 4, 1, 5, 9, 2, 6, 5, 3};

int main() {
  int i;
  pfor (i = 0; i < 10; i++) {
    if (a[i] == 9) break;
    a[i] = i;
  }
  print(i);
  pfor (i = 9; i >= 0; i -= 2) {
    {
      int t = a[i];
      if (t > 6) { break; }
      if (t == 5) { print(t); continue; }
      print(t * 10);
    }
  }
  print(i);
  pfor (i = 2; ; i += 3) {
    break;
  }
  print(i);
  return 0;
}
