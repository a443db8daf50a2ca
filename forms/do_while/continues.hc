// `continue` goes to the test, and `break` behind it.
int main() {
  int i = 0;
  do {
    i++;
    if (i == 2) continue;
    if (i > 5) break;
    print(i);
  } while (i < 9);
  print(i);
  int n = 0;
  do {
    n += 3;
    continue;
  } while (n < 10);
  print(n);
  do {
    n--;
    break;
  } while (n);
  print(n);
  return 0;
}
