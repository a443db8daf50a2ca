// Two tests that turns begin with: the first leads to the second where it doesn't hold, or the iteration ends by either. Less, not
// greater, of counters and of carried locals, against numbers and locals; loops that go on a while by the second alone, and regions
// that are opened again.
// Whole turns: 67.
int cells[16];
int asked;

int told(int x) {
  asked = asked + 1;
  return x;
}

int main() {
  int again = 3;
  int sum = 0;
  pfor (int k = 0; k < 5 || again > 0; k++) {
    if (k >= 5) again = again - 1;
    sum = sum * 2 + k;
  }
  print(sum);
  print(again);

  int bound = 6;
  again = 4;
  pfor (int k = 1; k <= bound || again != 0; k += 2) {
    if (k > bound) again = again - 1;
    sum = sum + k * again;
  }
  print(sum);

  int i = 0;
  again = 2;
  pwhile (i < 4 || again > 0) {
    if (i >= 4) again = again - 1;
    cells[i] = cells[i] + again + 1;
    i = i + 1;
  }
  print(i);
  print(cells[3] * 10 + cells[5]);

  i = 1;
  pwhile (i <= bound && sum > 0) {
    sum = sum - i;
    i = i + 1;
  }
  print(sum);

  pfor (int k = 0; k < 9 && k != 7; k++) cells[k] = cells[k] + k;
  print(cells[6] * 100 + cells[7]);

  pfor (int k = 0; k < 3 || told(k) < 6; k++) sum = sum + k;
  print(sum);
  print(asked);

  i = 0;
  pwhile (i < bound ? i < 4 : again > 0) {
    i = i + 1;
    sum = sum + i;
  }
  print(i);

  for (int round = 0; round < 4; round++) {
    again = round;
    pfor (int k = 0; k < round || again > 0; k++) {
      if (k >= round) again = again - 1;
      sum = sum + k;
    }
    pwhile (again < 2 || told(again) < round) again = again + 1;
  }
  print(sum);
  print(again);
  print(asked);

  pfor (int k = 2147483645; k < 2147483647 || again > 0; k++) {
    again = again - 1;
    if (k == 2147483647) break;
    sum = sum + 1;
  }
  print(sum);
  print(again);
  return 0;
}
