// Marked loops without a turn, in a region and outside.
// Whole turns: 4.
int main() {
  int n = 5;
  pfor (int i = n; i < 5; i++) print(i);
  pwhile (n != 5) n++;
  pfor (n = 7; n < 7; n++) print(n);
  print(n);
  pfor (int i = 0; i < 4; i++) {
    pwhile (i > 9) print(i);
    pfor (int j = i; j < i; j++) print(j);
    pfor (n = i; n < 2; n++) print(n + 10);
    print(n);
  }
}
