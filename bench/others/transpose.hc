// Ten turns of a table of 100 by 100 about its diagonal, a marked row a turn.
int m[10000];
int main() {
  pfor (int i = 0; i < 10000; i++) m[i] = i % 97;
  for (int r = 0; r < 10; r++) {
    pfor (int i = 0; i < 100; i++) {
      for (int j = 0; j < i; j++) {
        int t = m[i * 100 + j];
        m[i * 100 + j] = m[j * 100 + i];
        m[j * 100 + i] = t;
      }
    }
  }
  int s = 0;
  for (int i = 0; i < 100; i++) s += m[i * 100 + 3] * i;
  print(s);
  return 0;
}
