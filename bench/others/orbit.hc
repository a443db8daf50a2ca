// 64 points on circles, 400 marked steps.
int xs[64];
int ys[64];
int main() {
  for (int k = 0; k < 64; k++) { xs[k] = 1000 + k * 10; ys[k] = 0; }
  for (int t = 0; t < 400; t++) {
    pfor (int k = 0; k < 64; k++) {
      int x = xs[k]; int y = ys[k];
      x = x - y / 16;
      y = y + x / 16;
      xs[k] = x; ys[k] = y;
    }
  }
  int sum = 0;
  for (int k = 0; k < 64; k++) sum = sum + xs[k] + ys[k];
  print(sum);
  return 0;
}
