// Parameters that a region only reads, and that are used behind it.
// Whole turns: 7.
int a[8];

int fill(int from, int to, int with) {
  pfor (int i = from; i < to; i++) a[i] = with + i * from;
  return from * 100 + to * 10 + with;
}

int main() {
  print(fill(1, 4, 5));
  print(fill(4, 8, -5));
  print(fill(3, 3, 1));
  for (int i = 0; i < 8; i++) print(a[i]);
  return 0;
}
