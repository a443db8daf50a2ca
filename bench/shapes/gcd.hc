int gcd(int a, int b) {
  while (b != 0) { int t = a % b; a = b; b = t; }
  return a;
}
int main() {
  int sum = 0;
  for (int a = 1; a < 200; a++) for (int b = 1; b < 200; b++) sum += gcd(a, b);
  print(sum);
  return 0;
}
