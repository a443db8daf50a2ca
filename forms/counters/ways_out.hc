// Counters behind `break`, in a loop that `continue` cuts short, and with `return` from the middle.
int find(int k) {
  int i;
  pfor (i = 0; i < 20; i += 2) {
    if (i * i == k) return i;
    if (i > 9) break;
  }
  print(i);
  return -1;
}
int main() {
  int i;
  pfor (i = 1; i < 100; i += 3) {
    if (i > 20) break;
    if (i % 2 == 0) continue;
    print(i);
  }
  print(i);
  print(find(36));
  print(find(35));
  pfor (i = 9;; i--) {
    if (i < 5) break;
  }
  print(i);
  return 0;
}
