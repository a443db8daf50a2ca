// How many ways there are to put n queens on a board of n by n so that none attacks another,
// for n from 1 to 8. Each turn of the marked loop tries one place of the queen in the first row,
// and runs a recursive search of its own.
int ways[8];

// columns, left and right have a bit for each place of this row that an earlier queen attacks
int search(int full, int columns, int left, int right) {
  if (columns == full) return 1;
  int count = 0;
  int free = full & ~(columns | left | right);
  while (free) {
    // the lowest bit
    int queen = free & -free;
    free ^= queen;
    count += search(full, columns | queen, (left | queen) << 1, (right | queen) >> 1);
  }
  return count;
}

int main() {
  for (int n = 1; n <= 8; n++) {
    int full = (1 << n) - 1;
    pfor (int place = 0; place < n; place++) {
      int queen = 1 << place;
      ways[place] = search(full, queen, queen << 1, queen >> 1);
    }
    int sum = 0;
    for (int place = 0; place < n; place++) sum += ways[place];
    print(sum);
  }
  return 0;
}
