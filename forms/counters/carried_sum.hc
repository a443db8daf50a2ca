// A sum is carried, a limit copied, and the counter computed; then a counter that begins with what a call gives.
// Whole turns: 16.
int first(int n) { return n * n - 4; }

int main() {
  int s = 0;
  int k = 3;
  pfor (int i = 0; i < k; i++) s += i;
  print(s);
  int i;
  pfor (i = first(k); i < 15; i += 2) s += i;
  print(s);
  pfor (i = s - 42; i > -2; i--) { s = s - i; }
  print(s);
  print(i);
  return 0;
}
