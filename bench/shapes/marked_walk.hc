int next[1000];
int val[1000];
int main() {
  for (int i = 0; i < 1000; i = i + 1) { next[i] = i + 1; val[i] = i; }
  next[999] = -1;
  int s = 0;
  for (int r = 0; r < 400; r = r + 1) {
    int at = 0;
    pwhile (at != -1) { s = s + val[at]; at = next[at]; }
  }
  print(s);
  return 0;
}
