// Sums in a local: s is declared outside the marked loop and assigned inside it,
// so each turn goes on from the value that the turn before it left.
int main() {
  int s = 0;
  pfor (int i = 1; i <= 100; i++) s += i;
  print(s);

  int squares = 0;
  int cubes = 0;
  pfor (int i = 1; i <= 100; i++) {
    squares += i * i;
    cubes += i * i * i;
  }
  print(squares);
  print(cubes);
  return 0;
}
