// Turns whose last words are an element, a value, a sum with a number and a sum of two locals; and tests of a counter that hold
// in each turn, in none, in some, against a local and at a bound.
// Whole turns: 85.
int next[10];
int sums[10];

int twice(int n) {
  return n + n;
}

int main() {
  int i = 0;
  while (i < 10) { next[i] = (i + 3) % 10; i++; }

  int seen = 0;
  pfor (int at = 4; at != 1; at = next[at]) seen = seen * 10 + at;
  print(seen);

  int a = 0;
  int b = 1;
  pwhile (b < 1000) {
    int c = a + b;
    a = b;
    b = c;
  }
  print(a);
  print(b);

  int down = 5;
  int steps = 0;
  pwhile (down != 0) {
    steps = steps + down;
    if (down < 3) down = 1;
    else down = down - 1;
    if (down == 1) down = 0;
  }
  print(steps);

  int width = 3;
  int sum = 0;
  pfor (int k = 0; k < 20; k = k + width) sum = sum + k;
  print(sum);
  pfor (int k = 20; k > 0; k = k - 3) sum = sum + k;
  print(sum);

  pfor (int k = 0; k < 10; k++) sums[k] = k * k;
  pfor (int k = 0; k < 10; k++) sums[k] = sums[k] + twice(k);
  print(sums[9]);
  int most = 7;
  pfor (int k = 0; k <= most; k++) { sums[k] = 7; }
  print(sums[7] + sums[8]);
  pfor (int k = 10; k < 10; k++) sums[k - 10] = 0;
  print(sums[0]);
  pfor (int k = 0; k < 1; k++) sums[k] = twice(sums[k]);
  print(sums[0]);
  pfor (int k = 2147483640; k < 2147483647; k++) sum = sum + 1;
  print(sum);
  int last = 0;
  pfor (int k = 0; k < 6; k++) {
    if (k == 3) continue;
    last = k;
  }
  print(last);
  return 0;
}
