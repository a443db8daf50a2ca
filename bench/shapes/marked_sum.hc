int a[1000];
int main() {
  for (int i = 0; i < 1000; i++) a[i] = i;
  int s = 0;
  for (int r = 0; r < 200; r++) { pfor (int i = 0; i < 1000; i++) { s = s + a[i]; } }
  print(s);
  return 0;
}
