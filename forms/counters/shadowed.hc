// The body has a local of the counter's name, and assigns that one.
// Whole turns: 6.
int main() {
  pfor (int i = 0; i < 3; i++) {
    print(i);
    int i = 50;
    i = i + 1;
    print(i);
  }
  int i = 9;
  pfor (int j = i - 7; j < 5; j += 1) print(j);
  print(i);
  return 0;
}
