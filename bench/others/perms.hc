// The orders of seven numbers by recursion, and how many begin lower than they end.
int p[8];
int used[8];
int found;
int go(int k) {
  if (k == 7) {
    if (p[0] < p[6]) found = found + 1;
    return 0;
  }
  for (int i = 0; i < 7; i++) {
    if (used[i] == 0) { used[i] = 1; p[k] = i; go(k + 1); used[i] = 0; }
  }
  return 0;
}
int main() { found = 0; go(0); print(found); return 0; }
