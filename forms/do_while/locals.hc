// Locals of the body begin anew in each turn, and the test sees those around it.
int x = 7;

int main() {
  int n = 0;
  do {
    int x = n * 2;
    int y = 0;
    y += x;
    n++;
    print(y);
  } while (n < x - 3);
  {
    int x = 2;
    do {
      int n = x;
      x--;
      print(n);
    } while (x + n > 3);
    print(x);
  }
  print(x);
  return 0;
}
