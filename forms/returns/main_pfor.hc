// `return` from `main` out of a `pfor`.
// Whole turns: 3.
int main() {
  pfor (int i = 0; i < 9; i++) {
    print(i);
    if (i == 3) return i * 100;
  }
  print(-1);
  return -1;
}
