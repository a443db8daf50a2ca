int next[1000];
int main() {
  for (int i = 0; i < 1000; i++) next[i] = (i + 7) % 1000;
  int at = 0;
  int s = 0;
  int k = 0;
  pwhile (k < 200000) { s = s + at; at = next[at]; k = k + 1; }
  print(s);
  return 0;
}
