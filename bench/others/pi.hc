// Points within a circle among 64,000, a marked group a turn.
int hits[16];
int main() {
  pfor (int w = 0; w < 16; w++) {
    int seed = w * 977 + 1; int inside = 0;
    for (int k = 0; k < 4000; k++) {
      seed = (seed * 1309 + 13849) % 65536;
      int x = seed >> 6;
      seed = (seed * 1309 + 13849) % 65536;
      int y = seed >> 6;
      if (x * x + y * y < 1048576) inside++;
    }
    hits[w] = inside;
  }
  int s = 0;
  for (int w = 0; w < 16; w++) s += hits[w];
  print(s);
  return 0;
}
