// Turns that write words of their own, by the counter.
int a[16];
int b[16];
int main() {
  pfor (int i = 0; i < 16; i++) a[i] = i * i;
  pfor (int i = 15; i >= 0; i--) b[i] = a[15 - i] - i;
  pfor (int i = 0; i < 16; i += 5) print(a[i] + b[i]);
  pfor (int i = 1; i < 16; i++) a[i] += a[i - 1];
  print(a[15]);
  return 0;
}
// Whole turns: 51.
