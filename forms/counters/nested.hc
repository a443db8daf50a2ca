// Marked loops in marked ones, all with counters: the outer one is a region, and runs the inner ones plainly.
// Whole turns: 6.
int m[12];

void row(int i) {
  pfor (int j = 0; j < 4; j++) m[i * 4 + j] = i * 10 + j;
}

int main() {
  pfor (int i = 2; i >= 0; i--) row(i);
  int k;
  pfor (int i = 0; i < 3; i++) {
    pfor (k = 3; k >= 0; k--) print(m[i * 4 + k]);
    print(k);
  }
  print(k);
  return 0;
}
