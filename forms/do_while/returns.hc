// `return` out of a `do`: outside a region, in one, and in a function that one calls.
int first(int n) {
  do {
    if (n % 7 == 0) return n;
    n++;
  } while (n < 100);
  return -1;
}

int found(int n) {
  pfor (int i = 0; i < 9; i++) {
    int j = 0;
    do {
      if (i * j == n) return i * 10 + j;
      j++;
    } while (j < 9);
  }
  return -1;
}

void shows(int n) {
  do {
    if (n == 3) return;
    print(n);
    n--;
  } while (n > 0);
  print(99);
}

int main() {
  print(first(15));
  print(first(98));
  print(first(99));
  print(found(15));
  print(found(64));
  print(found(67));
  pfor (int i = 10; i < 13; i++) print(first(i));
  shows(5);
  shows(2);
  return 0;
}
