// Marked loops whose bodies are a marked loop or an `if`, without braces.
// Whole turns: 15.
int main() {
  int s = 0;
  pfor (int i = 0; i < 3; i++) pfor (int j = 0; j < 3; j++) pwhile (s % 7 != j) s += i + 1;
  print(s);
  pwhile (s > 0) if (s % 2) s -= 5; else s -= 8;
  print(s);
  pfor (int i = 0; i < 2; i++) for (int j = 0; j < 2; j++) pfor (int k = 0; k < 2; k++) print(i * 4 + j * 2 + k);
  pfor (int i = 0; i < 1; i++) ;
}
