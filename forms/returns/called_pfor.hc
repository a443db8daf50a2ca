// A function returns out of its `pfor`, and its caller goes on.
// Whole turns: 25.
int find(int k) {
  pfor (int i = 0; i < 9; i++) {
    if (i * i == k) return i;
  }
  return -1;
}

int main() {
  print(find(49));
  print(find(50));
  return find(0) + find(50) * 0;
}
