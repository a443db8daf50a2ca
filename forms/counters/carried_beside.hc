// A counter beside carried and copied locals, and a sum that each turn needs of the one before.
int main() {
  int s = 0;
  int k = 3;
  int last = -1;
  pfor (int i = 0; i < k; i++) s += i;
  print(s);
  pfor (int i = 10; i > k; i -= 2) {
    s = s * 2 + i;
    last = i;
  }
  print(s);
  print(last);
  pfor (int i = 0, t = 5; i < k; i++) {
    t += i;
    print(t);
  }
  return 0;
}
// Whole turns: 10.
