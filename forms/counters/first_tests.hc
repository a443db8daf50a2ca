// Tests that turns begin with, less and less or equal: of counters and of carried locals, against a number, a local that the turns
// only read and one that they assign, at the greatest number, and never. Regions that are opened again and again, by loops and by
// a function.
// Whole turns: 123.
int cells[12];

int below(int bound) {
  int sum = 0;
  pfor (int k = 0; k < bound; k++) sum = sum + cells[k];
  return sum;
}

int main() {
  int i = 0;
  pwhile (i <= 11) {
    cells[i] = i + 1;
    i = i + 1;
  }
  print(cells[11]);

  int bound = 9;
  int sum = 0;
  i = 2;
  pwhile (i < bound) {
    sum = sum * 3 + i;
    i = i + 2;
  }
  print(sum);
  print(i);

  i = 3;
  pwhile (i <= bound) {
    i = i + 3;
    sum = sum + i;
  }
  print(sum);

  i = 0;
  pwhile (i < bound) {
    bound = bound - 1;
    i = i + 2;
    sum = sum + bound;
  }
  print(bound);
  print(sum);

  pfor (int k = 0; k <= bound; k++) sum = sum + k;
  print(sum);
  pfor (int k = 3; k <= bound; k++) bound = bound - 1;
  print(bound);

  int most = 2147483647;
  i = 2147483645;
  pwhile (i <= most) {
    sum = sum + 1;
    if (i == most) break;
    i = i + 1;
  }
  print(sum);
  pfor (int k = 2147483644; k <= 2147483646; k++) sum = sum + 1;
  print(sum);

  int least = -2147483647 - 1;
  i = least;
  pwhile (i < least) sum = 0;
  pwhile (i <= least) i = i + 1;
  print(i + 2147483647);

  int a = 1;
  int b = 2;
  int c = 3;
  int d = 4;
  int e = 5;
  int f = 6;
  int g = 7;
  int h = 8;
  i = 0;
  pwhile (i < h) {
    i = i + a;
    sum = sum + b * c - d + e * f - g;
  }
  print(sum);

  int r = 0;
  while (r < 12) {
    sum = sum - below(r);
    r = r + 1;
  }
  print(sum);
  r = 0;
  while (r < 4) {
    pfor (int k = r; k < 7; k = k + 2) cells[k] = cells[k] + r;
    r = r + 1;
  }
  print(cells[0] + cells[2] + cells[3] + cells[5] + cells[6]);
  return 0;
}
