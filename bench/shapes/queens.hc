int column[8];
int up[16];
int down[16];
int place(int row, int n) {
  if (row == n) return 1;
  int count = 0;
  for (int c = 0; c < n; c++)
    if (column[c] == 0 && up[row + c] == 0 && down[row - c + n] == 0) {
      column[c] = 1; up[row + c] = 1; down[row - c + n] = 1;
      count += place(row + 1, n);
      column[c] = 0; up[row + c] = 0; down[row - c + n] = 0;
    }
  return count;
}
int main() {
  print(place(0, 8));
  return 0;
}
