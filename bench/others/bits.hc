// How many bits are set in the numbers below 20,000, a call for each turn of a pwhile.
int count(int x) { int n = 0; while (x != 0) { n += x & 1; x = x >> 1; } return n; }
int main() {
  int s = 0;
  int i = 0;
  pwhile (i < 20000) { s += count(i); i++; }
  print(s);
  return 0;
}
