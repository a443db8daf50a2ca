// Where six numbers stand in 20,000, a marked place a turn.
int t[20000]; int w[6] = {1, 4, 1, 0, 2, 4};
int main() {
  for (int i = 0; i < 20000; i++) t[i] = (i * i + i / 7) % 5;
  int hits = 0;
  pfor (int i = 0; i + 6 <= 20000; i++) {
    int k = 0;
    while (k < 6 && t[i + k] == w[k]) k++;
    if (k == 6) hits++;
  }
  print(hits);
  return 0;
}
