// Loops that look like it: their steps, or what their bodies assign, make their locals carried ones.
// Whole turns: 26.
int main() {
  pfor (int i = 0; i < 3; i = i + 1) print(i);
  pfor (int i = 0; i < 3; i += (1)) print(i);
  pfor (int i = 3; i > 0; i += -1) print(i);
  pfor (int i = 1; i < 9; i *= 2) print(i);
  pfor (int i = 0; i < 6; i++) { print(i); i = i + 1; }
  pfor (int i = 0; i < 6; i++) { print(i); { if (i == 2) { i++; } } }
  pfor (int i = 0; i < 6; i++) { for (; i % 3 != 0; i++) emit(66); print(i); }
  int i = 1;
  pfor (; i < 3; i++) print(i);
  return 0;
}
