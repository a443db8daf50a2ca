// In how many ways 5,000 is paid with eight coins, a marked sum a turn.
int ways[5001]; int coin[8] = {1, 2, 5, 10, 20, 50, 100, 200};
int main() {
  ways[0] = 1;
  for (int c = 0; c < 8; c++) {
    int v = coin[c];
    pfor (int t = v; t <= 5000; t++) ways[t] = (ways[t] + ways[t - v]) % 10007;
  }
  print(ways[5000]);
  return 0;
}
