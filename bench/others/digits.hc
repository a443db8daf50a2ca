// Numbers up to 15,000 that their digits' sum divides, a marked call for each.
int sum(int n) { int s = 0; while (n > 0) { s += n % 10; n = n / 10; } return s; }
int main() {
  int c = 0;
  pfor (int n = 1; n <= 15000; n++) if (n % sum(n) == 0) c++;
  print(c);
  return 0;
}
