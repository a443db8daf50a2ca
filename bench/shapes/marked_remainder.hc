int s[1000];
int main() {
  for (int r = 0; r < 400; r = r + 1) {
    pfor (int i = 0; i < 1000; i++) { if (i % 3 == 0) { s[i] = s[i] * 5 + i; } }
  }
  print(s[999]);
  return 0;
}
