// A region in a plain loop carries locals of that loop's body, which are set anew each time.
// Whole turns: 12.
int main() {
  int sum = 0;
  for (int k = 0; k < 3; k++) {
    int x = k * 10, y = 1;
    pfor (int i = 0; i < 4; i++) { x += i * y; y += k; sum += x; }
    print(x);
    print(y);
  }
  print(sum);
}
