// Who is left of 2,000 in a ring, where each seventh goes.
int next[2001];
int main() {
  for (int i = 0; i < 2000; i++) next[i] = (i + 1) % 2000;
  int at = 1999;
  int left = 2000;
  pwhile (left > 1) {
    for (int k = 0; k < 6; k++) at = next[at];
    next[at] = next[next[at]];
    left--;
  }
  print(at);
  return 0;
}
