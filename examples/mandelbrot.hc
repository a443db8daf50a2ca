// The Mandelbrot set in bytes: the picture is computed by a marked loop, a row a turn, and then shown.
// Numbers have 12 bits behind the point: 4096 stands for 1.
int shades[1536];

// how many rounds a point stays near 0, at most 40
int rounds(int cx, int cy) {
  int x = 0;
  int y = 0;
  int n = 0;
  while (n < 40) {
    int xx = (x * x) >> 12;
    int yy = (y * y) >> 12;
    if (xx + yy > 4 * 4096) return n;
    y = ((x * y) >> 11) + cy;
    x = xx - yy + cx;
    n++;
  }
  return n;
}

// a byte for a number of rounds: a blank for the fewest, `#` inside the set
int shade(int n) {
  if (n >= 40) return 35;
  if (n >= 14) return 37;
  if (n >= 8) return 43;
  if (n >= 6) return 45;
  if (n >= 4) return 46;
  return 32;
}

int main() {
  pfor (int row = 0; row < 24; row++) {
    for (int column = 0; column < 64; column++) {
      int cx = column * 192 - 2 * 4096 - 800;
      int cy = row * 400 - 23 * 200;
      shades[row * 64 + column] = shade(rounds(cx, cy));
    }
  }

  for (int i = 0; i < 1536; i++) {
    emit(shades[i]);
    if (i % 64 == 63) emit(10);
  }
  return 0;
}
