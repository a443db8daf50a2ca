// Points of the Mandelbrot set on a grid of 160 by 120, in fixed point with 12 bits behind the point.
int main() {
  int inside = 0;
  int row;
  for (row = 0; row < 120; row++) {
    int col;
    for (col = 0; col < 160; col++) {
      int cr = (col - 110) * 64;
      int ci = (row - 60) * 64;
      int zr = 0;
      int zi = 0;
      int n = 0;
      while (n < 60 && zr * zr / 4096 + zi * zi / 4096 < 16384) {
        int t = (zr * zr - zi * zi) / 4096 + cr;
        zi = 2 * zr * zi / 4096 + ci;
        zr = t;
        n++;
      }
      if (n == 60) inside++;
    }
  }
  print(inside);
  return 0;
}
