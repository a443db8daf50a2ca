int m[10000];
int main() {
  int s = 0;
  for (int r = 0; r < 10; r++) {
    for (int i = 0; i < 100; i++) {
      for (int j = 0; j < 100; j++) {
        m[i * 100 + j] = i + j + r;
        s = s + m[j * 100 + i];
      }
    }
  }
  print(s);
  return 0;
}
