int sum;
int odd;
int i;
int main() {
  for (i = 0; i < 300000; i++) {
    sum = (sum + i) & 65535;
    if ((sum & 1) == 1) odd = odd + 1;
  }
  print(sum); print(odd);
  return 0;
}
