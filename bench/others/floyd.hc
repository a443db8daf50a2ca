// Shortest paths between 60 places, a marked row a turn.
int d[3600];
int main() {
  for (int i = 0; i < 60; i++) for (int j = 0; j < 60; j++) d[i * 60 + j] = (i * 31 + j * 17) % 97 + 1;
  for (int k = 0; k < 60; k++) {
    pfor (int i = 0; i < 60; i++) {
      int x = d[i * 60 + k];
      for (int j = 0; j < 60; j++) {
        int t = x + d[k * 60 + j];
        if (t < d[i * 60 + j]) d[i * 60 + j] = t;
      }
    }
  }
  int s = 0;
  for (int i = 0; i < 3600; i++) s += d[i];
  print(s);
  return 0;
}
