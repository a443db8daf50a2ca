// Fibonacci numbers by powers of a matrix, with calls of two kinds in marked turns.
int m[4]; int r[4]; int t[4];
void times(int p) {
  for (int i = 0; i < 2; i++) for (int j = 0; j < 2; j++) {
    int s = 0;
    for (int k = 0; k < 2; k++) s = (s + (p ? r[i * 2 + k] : m[i * 2 + k]) * m[k * 2 + j]) % 1009;
    t[i * 2 + j] = s;
  }
  for (int i = 0; i < 4; i++) if (p) r[i] = t[i]; else m[i] = t[i];
}
int main() {
  int sum = 0;
  pfor (int n = 1; n < 300; n++) {
    m[0] = 1; m[1] = 1; m[2] = 1; m[3] = 0;
    r[0] = 1; r[1] = 0; r[2] = 0; r[3] = 1;
    int e = n;
    while (e > 0) { if (e % 2 == 1) times(1); times(0); e = e / 2; }
    sum = (sum + r[1]) % 1009;
  }
  print(sum);
  return 0;
}
