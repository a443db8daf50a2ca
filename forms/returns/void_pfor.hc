// A void function returns out of its `pfor`.
// Whole turns: 5.
int g;

void until(int x) {
  int s = 0;
  pfor (int i = 0; i < 4; i++) {
    s += i;
    g += s;
    if (i == x) return;
    print(g);
  }
  print(-s);
}

int main() {
  until(1);
  until(9);
  until(0);
  print(g);
  return 0;
}
