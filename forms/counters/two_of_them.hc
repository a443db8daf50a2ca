// Of two locals that are declared, the step counts one; a step over both is none.
// Whole turns: 10.
int main() {
  pfor (int i = 3, j = 5; j > 0; j--) print(i * j);
  pfor (int i = 0, j = 2; i < 5; i++) {
    j += i;
    print(j);
  }
  return 0;
}
