// A counter that is declared outside goes down by 4, and is used behind its loop.
// Whole turns: 2.
int main() {
  int i;
  pfor (i = 10; i > 4; i -= 4) emit(65);
  print(i);
  return 0;
}
