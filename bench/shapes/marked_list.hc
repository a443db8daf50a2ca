int next[1000];
int val[1000];
int main() {
  for (int i = 0; i < 1000; i = i + 1) { next[i] = (i * 7 + 1) % 1000; val[i] = i; }
  int s = 0;
  int at = 0;
  pfor (int k = 0; k < 400000; k++) { s = s + val[at]; at = next[at]; }
  print(s);
  return 0;
}
