// Twelve queens, a turn for each place of the first.
int found[12];
int rest(int row, int columns, int left, int right) {
  if (row == 12) return 1;
  int n = 0;
  for (int column = 0; column < 12; column++) {
    int bit = 1 << column;
    if (((columns | left | right) & bit) == 0)
      n += rest(row + 1, columns | bit, (left | bit) << 1, (right | bit) >> 1);
  }
  return n;
}
int main() {
  pfor (int column = 0; column < 12; column++) {
    int bit = 1 << column;
    found[column] = rest(1, bit, bit << 1, bit >> 1);
  }
  int sum = 0;
  for (int column = 0; column < 12; column++) sum += found[column];
  print(sum);
  return 0;
}
