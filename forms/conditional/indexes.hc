// As an index, read, assigned and updated, and as what is assigned.
int a[6];

int main() {
  for (int i = 0; i < 6; i++) a[i < 3 ? i : 8 - i] = i ? i * i : 7;
  for (int i = 0; i < 6; i++) print(a[i]);
  a[a[0] ? 1 : 2] += a[1] ? a[2] : 1;
  a[a[0] > 100 ? 1 : 2]++;
  a[3] *= a[4] > a[5] ? 2 : 3;
  for (int i = 0; i < 6; i++) print(a[i]);
  print(a[a[0] == 7 ? a[1] > 5 ? 4 : 5 : 0]);
  return 0;
}
