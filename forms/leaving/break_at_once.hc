// `break` in the first turn, and a loop whose body is only `break` or only `continue`.
// Whole turns: 4.
int main() {
  int n = 7;
  pfor (int i = 0; i < 5; i++) break;
  pwhile (1) { n *= 2; break; }
  pfor (int i = 0; i < 4; i++) continue;
  pfor (;;) { { { break; } } }
  print(n);
  return 0;
}
