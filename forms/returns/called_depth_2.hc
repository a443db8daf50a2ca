// A function returns out of a `while` in its `pfor`.
// Whole turns: 31.
int a[10] = {4, 8, 15, 16, 23, 42, 7, 11, 13, 20};

int pair_of(int sum) {
  pfor (int i = 0; i < 10; i++) {
    int j = i;
    while (j < 9) {
      j++;
      if (a[i] + a[j] == sum) { a[i]++; return i * 10 + j; }
    }
  }
  return -1;
}

int main() {
  print(pair_of(58));
  print(pair_of(33));
  print(pair_of(33));
  print(pair_of(1000));
  print(a[3]);
  return 0;
}
