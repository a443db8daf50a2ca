// Checksums of 4,096 bytes by a table, twenty times, and a marked filling.
int table[256];
int data[4096];
int main() {
  for (int n = 0; n < 256; n++) {
    int c = n;
    for (int k = 0; k < 8; k++) { if (c & 1) c = 23130 ^ (c >> 1); else c = c >> 1; }
    table[n] = c;
  }
  pfor (int i = 0; i < 4096; i++) data[i] = (i * 37 + 11) & 255;
  int sum = 0;
  for (int r = 0; r < 20; r++) {
    int c = 65535 - r;
    for (int i = 0; i < 4096; i++) c = table[(c ^ data[i]) & 255] ^ (c >> 8);
    sum = (sum + c) & 65535;
  }
  print(sum);
  return 0;
}
