int p[20000];
int main() {
  int count = 0;
  for (int i = 2; i < 20000; i++) {
    if (p[i] == 0) {
      count = count + 1;
      if (i < 150) { pfor (int j = i * i; j < 20000; j = j + i) { p[j] = 1; } }
    }
  }
  print(count);
  return 0;
}
