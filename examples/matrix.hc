// The product of two matrices of 12 by 12: each turn of the marked loop makes one row.
// A matrix is an array of its rows, one after another.
int a[144];
int b[144];
int product[144];

// the decimal of a number from -2147483647 up, without a line feed
void decimal(int n) {
  if (n < 0) {
    emit(45);
    n = -n;
  }
  if (n >= 10) decimal(n / 10);
  emit(48 + n % 10);
}

int main() {
  int size = 12;
  for (int i = 0; i < size; i++) {
    for (int j = 0; j < size; j++) {
      a[i * size + j] = i - j;
      b[i * size + j] = (i * j) % 7;
    }
  }

  pfor (int i = 0; i < size; i++) {
    for (int j = 0; j < size; j++) {
      int sum = 0;
      for (int k = 0; k < size; k++) sum += a[i * size + k] * b[k * size + j];
      product[i * size + j] = sum;
    }
  }

  for (int i = 0; i < size; i++) {
    for (int j = 0; j < size; j++) {
      if (j > 0) emit(32);
      decimal(product[i * size + j]);
    }
    emit(10);
  }
  return 0;
}
