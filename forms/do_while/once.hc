// The body goes before each test: once where the test fails at once.
int g;

int main() {
  do print(1); while (0);
  do { g++; print(g); } while (g < 3);
  do ; while (g < 0);
  int i = 10;
  do i--; while (i > 4);
  print(i);
  return 0;
}
