int s[1000];
int f(int x) { return x * 3 + 1; }
int main() {
  int a1 = 1; int a2 = a1 + 1; int a3 = a2 + 1; int a4 = a3 + 1; int a5 = a4 + 1; int a6 = a5 + 1; int a7 = a6 + 1; int a8 = a7 + 1;
  for (int r = 0; r < 400; r = r + 1) {
    pfor (int i = 0; i < 1000; i++) { s[i] = f(i); }
  }
  print(s[999]);
  return 0;
}
