int main() {
  int x = 1;
  pfor (int i = 0; i < 400000; i++) { x = x * 1103515245 + 12345; }
  print(x);
  return 0;
}
