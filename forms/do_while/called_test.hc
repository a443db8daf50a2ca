// The test is a call, and is made after each turn of the body.
int n;

int more(int most) {
  n++;
  print(n * 10);
  return n < most;
}

int main() {
  do print(n); while (more(3));
  n = 0;
  pfor (int i = 0; i < 2; i++) {
    int k = 0;
    do { k += 2; if (k == 4) continue; print(-k); } while (more(i + 4));
  }
  return 0;
}
