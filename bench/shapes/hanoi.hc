int moves;
int hanoi(int n, int a, int b, int c) {
  if (n == 0) return 0;
  hanoi(n - 1, a, c, b);
  moves = moves + 1;
  hanoi(n - 1, c, b, a);
  return 0;
}
int main() { hanoi(14, 1, 2, 3); print(moves); return 0; }
