// Locals that a first clause declares, with others of the same names before and behind.
// Whole turns: 8.
int main() {
  int i = 50, j = 60;
  pfor (int i = 0, j = 9, k; i < j; i++) { k = i * j; j--; print(k); }
  print(i); print(j);
  pfor (i = 1; i < 4; i += 2) j += i;
  print(i); print(j);
  { int j = 5; pfor (int i = j; i; ) { i -= j; print(i); } print(j); }
  print(i); print(j);
}
