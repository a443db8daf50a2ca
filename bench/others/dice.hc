// 40,000 throws of two dice, a marked turn each, with the seed in a global.
int h[13]; int seed;
int roll() { seed = (seed * 421 + 1663) % 7875; return seed % 6 + 1; }
int main() {
  seed = 7;
  pfor (int i = 0; i < 40000; i++) { int x = roll(); int y = roll(); h[x + y]++; }
  pfor (int i = 2; i < 13; i++) print(h[i]);
  return 0;
}
