// The longest chain of the 3n+1 problem below 60000.
int main() {
  int best = 0;
  int longest = 0;
  int n;
  for (n = 1; n < 60000; n++) {
    int x = n;
    int steps = 0;
    while (x != 1) {
      if (x % 2 == 0) x = x / 2;
      else x = 3 * x + 1;
      steps++;
    }
    if (steps > longest) {
      longest = steps;
      best = n;
    }
  }
  print(best);
  print(longest);
  return 0;
}
