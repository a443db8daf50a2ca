// Functions that the turns call return out of plain loops; the region goes on.
// Whole turns: 6.
int a[8] = {5, 3, 8, 1, 9, 2, 7, 4};

int place_of(int x) {
  for (int i = 0; i < 8; i++) {
    int n = i;
    while (n < 8) {
      if (a[n] == x) return n * 10 + i;
      n += 3;
    }
  }
  return -1;
}

void tell(int x) {
  if (x < 0) { print(-1000); return; }
  for (;;) { x -= 7; if (x < 0) return; print(x); }
}

int main() {
  pfor (int i = 0; i < 6; i++) {
    print(place_of(i));
    tell(place_of(i) - i);
  }
  return 0;
}
