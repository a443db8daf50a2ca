// `continue` in a `pfor` goes on with its step.
// Whole turns: 6.
int main() {
  int s = 0;
  pfor (int i = 0; i < 6; i++) {
    if (i % 2) continue;
    print(i);
    s += i;
  }
  print(s);
}
