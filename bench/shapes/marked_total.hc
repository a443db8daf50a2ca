int a[1000];
int total;
int main() {
  for (int r = 0; r < 200; r++) { pfor (int i = 0; i < 1000; i++) { total = total + a[i] + i; } }
  print(total);
  return 0;
}
