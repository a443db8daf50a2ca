// A running sum, a turn for each word.
int x[8192];
int main() {
  for (int k = 0; k < 8192; k++) x[k] = k % 31 - 15;
  int sum = 0;
  pfor (int k = 0; k < 8192; k++) sum += x[k] * x[k];
  print(sum);
  return 0;
}
