// Functions return out of their loops, with the counter and without.
// Whole turns: 13.
int a[6] = {8, 6, 7, 5, 3, 0};

int place_of(int x) {
  pfor (int i = 0; i < 6; i++)
    if (a[i] == x) return i;
  return -1;
}

int least_above(int x) {
  int i;
  pfor (i = x; ; i += 2) {
    if (i % 7 == 0) return 100;
    if (i > x + 3) return i;
  }
}

int main() {
  print(place_of(5));
  print(place_of(9));
  print(least_above(1));
  print(least_above(13));
  return 0;
}
