// A local that the turns assign in a `do` alone, one in its test alone, and one that they declare there.
// Whole turns: 4.
int main() {
  int s = 1;
  int most = 5;
  int last = 0;
  pfor (int i = 0; i < 4; i++) {
    int j = 0;
    do {
      int before = s;
      s += j;
      last = before;
      j++;
    } while (j < most - i);
  }
  print(s);
  print(most);
  print(last);
  return 0;
}
