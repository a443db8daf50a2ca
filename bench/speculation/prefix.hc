// Sums of the first words, a turn for each block of 64: first by itself, and then on top of the blocks before.
int x[16384];
int top[256];
int main() {
  for (int k = 0; k < 16384; k++) x[k] = k % 23;
  pfor (int block = 0; block < 256; block++) {
    for (int k = 1; k < 64; k++) x[block * 64 + k] += x[block * 64 + k - 1];
    top[block] = x[block * 64 + 63];
  }
  for (int block = 1; block < 256; block++) top[block] += top[block - 1];
  pfor (int block = 1; block < 256; block++)
    for (int k = 0; k < 64; k++) x[block * 64 + k] += top[block - 1];
  print(x[16383]);
  return 0;
}
