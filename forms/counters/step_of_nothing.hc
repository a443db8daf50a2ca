// Steps of 0: the counter stays, and the loop is left by `break`.
// Whole turns: 5.
int count;

int main() {
  int i;
  pfor (i = 7; ; i += 0) {
    count++;
    if (count == 3) break;
    print(i);
  }
  print(i + count);
  pfor (int j = -2; j < 0; j -= 0) {
    count++;
    print(j * count);
    if (count == 7) break;
  }
  return 0;
}
