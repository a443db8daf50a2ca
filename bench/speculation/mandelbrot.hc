// The Mandelbrot set on a grid of 320 by 240, a turn for each row.
int inside[240];
int points(int row) {
  int n_inside = 0;
  int col;
  for (col = 0; col < 320; col++) {
    int cr = (col - 220) * 32;
    int ci = (row - 120) * 32;
    int zr = 0;
    int zi = 0;
    int n = 0;
    while (n < 60 && zr * zr / 4096 + zi * zi / 4096 < 16384) {
      int t = (zr * zr - zi * zi) / 4096 + cr;
      zi = 2 * zr * zi / 4096 + ci;
      zr = t;
      n++;
    }
    if (n == 60) n_inside++;
  }
  return n_inside;
}
int main() {
  pfor (int row = 0; row < 240; row++) inside[row] = points(row);
  int sum = 0;
  for (int row = 0; row < 240; row++) sum += inside[row];
  print(sum);
  return 0;
}
