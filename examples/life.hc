// Conway's Game of Life on a board of 16 by 12 whose edges meet: a glider and a blinker,
// shown at every fourth of 16 generations. Each turn of the marked loop makes one row of the next board.
int board[192];
int fresh[192];

int alive(int x, int y) {
  return board[(y + 12) % 12 * 16 + (x + 16) % 16];
}

int neighbours(int x, int y) {
  int count = -alive(x, y);
  for (int dy = -1; dy <= 1; dy++)
    for (int dx = -1; dx <= 1; dx++) count += alive(x + dx, y + dy);
  return count;
}

void show() {
  for (int i = 0; i < 192; i++) {
    if (board[i]) emit(35); else emit(46);
    if (i % 16 == 15) emit(10);
  }
  emit(10);
}

int main() {
  board[0 * 16 + 1] = 1;
  board[1 * 16 + 2] = 1;
  board[2 * 16 + 0] = 1;
  board[2 * 16 + 1] = 1;
  board[2 * 16 + 2] = 1;
  for (int x = 9; x < 12; x++) board[8 * 16 + x] = 1;

  for (int generation = 0; generation <= 16; generation++) {
    if (generation % 4 == 0) show();
    pfor (int y = 0; y < 12; y++) {
      for (int x = 0; x < 16; x++) {
        int n = neighbours(x, y);
        fresh[y * 16 + x] = n == 3 || (n == 2 && alive(x, y));
      }
    }
    pfor (int i = 0; i < 192; i++) board[i] = fresh[i];
  }
  return 0;
}
