int count[256];
int main() {
  int x = 1;
  for (int i = 0; i < 1000000; i++) {
    x = (x * 75 + 74) % 65537;
    count[x & 255]++;
  }
  int most = 0;
  for (int k = 0; k < 256; k++) if (count[k] > most) most = count[k];
  print(most);
  return 0;
}
