int main() {
  pfor (int i = 0; i < 20000; i++) { emit(65 + i % 26); }
  return 0;
}
