// What would fail stands in the arm that isn't taken.
int a[3] = {5, 6, 7};

int part(int x, int y) {
  return y ? x / y : 0;
}

int rest(int x, int y) {
  return y == 0 ? -1 : x % y;
}

int at(int i) {
  return i >= 0 && i < 3 ? a[i] : -1;
}

int down(int n) {
  return n == 0 ? 0 : n + down(n - 1);
}

int main() {
  for (int i = -1; i < 5; i++) {
    print(part(12, i));
    print(rest(13, i));
    print(at(i));
  }
  print(down(50));
  return 0;
}
