int main() {
  pfor (int i = 0; i < 20000; i++) { print(i); }
  return 0;
}
