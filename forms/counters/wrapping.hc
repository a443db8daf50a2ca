// Counters that wrap: past the greatest number, past the least, and by steps as great as a number can be.
// Whole turns: 7.
int main() {
  int i;
  pfor (i = 2147483646; i > 0; i++) print(i);
  print(i);
  pfor (i = -2147483647; i < 0; i--) print(i);
  print(i);
  pfor (i = 5; i != 3; i += 2147483647) print(i);
  print(i);
  pfor (i = -3; i < 2147483640; i -= 2147483647) print(i);
  print(i);
  return 0;
}
