// In each clause of a `for`, in declarations, tests, `print` and `return`.
// Whole turns: 4.
int pick(int up) {
  return up ? 2 : -2;
}

int main() {
  int up = 1;
  int from = up ? 0 : 8, to = up ? 8 : 0;
  for (int i = up ? from : to; up ? i < to : i > from; i += up ? 3 : -3) print(i);
  pfor (int i = up ? 1 : 2; i < (up ? 9 : 3); i += pick(up)) emit(i > 4 ? 65 + i : 97 + i);
  emit(up ? 10 : 32);
  if (up ? to : from) print(1); else print(2);
  while (up ? from < 2 : 0) from++;
  do to -= up ? 5 : 1; while (to > 0 ? 1 : 0);
  print(from);
  print(to);
  return up ? 0 : 1;
}
