// `return` out of a marked loop inside the region leaves the region too.
// Whole turns: 2.
int g;

int search(int sum) {
  pfor (int i = 0; i < 5; i++) {
    pfor (int j = 0; j < 5; j++) {
      g++;
      if (i * 7 + j * 3 == sum) return i * 10 + j;
    }
  }
  return -1;
}

int main() {
  print(search(23));
  print(g);
  return 0;
}
