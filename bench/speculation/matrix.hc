// The product of two matrices of 48 by 48, a turn for each row.
int a[2304];
int b[2304];
int c[2304];
int main() {
  for (int k = 0; k < 2304; k++) {
    a[k] = k % 17 - 8;
    b[k] = k % 13 - 6;
  }
  pfor (int row = 0; row < 48; row++)
    for (int col = 0; col < 48; col++) {
      int sum = 0;
      for (int k = 0; k < 48; k++) sum += a[row * 48 + k] * b[k * 48 + col];
      c[row * 48 + col] = sum;
    }
  int sum = 0;
  for (int k = 0; k < 2304; k++) sum += c[k] * (k % 7);
  print(sum);
  return 0;
}
