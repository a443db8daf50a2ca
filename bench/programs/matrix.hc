// The product of two matrices of 120 rows and columns.
int a[14400];
int b[14400];
int c[14400];

int main() {
  int i;
  int j;
  int k;
  for (i = 0; i < 14400; i++) {
    a[i] = i % 7 - 3;
    b[i] = i % 5 - 2;
  }
  for (i = 0; i < 120; i++) {
    for (j = 0; j < 120; j++) {
      int sum = 0;
      for (k = 0; k < 120; k++) sum += a[i * 120 + k] * b[k * 120 + j];
      c[i * 120 + j] = sum;
    }
  }
  int check = 0;
  for (i = 0; i < 14400; i++) check = check * 31 + c[i];
  print(check);
  return 0;
}
