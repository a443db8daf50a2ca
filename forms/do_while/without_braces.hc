// Bodies without braces: an `if` with an `else`, a loop, another `do`.
int main() {
  int a = 0;
  do if (a % 2) a += 3; else a += 1; while (a < 20);
  print(a);
  do while (a > 10) a -= 4; while (a > 9);
  print(a);
  do do a++; while (a % 3); while (a % 5);
  print(a);
  if (a > 3) do a -= 2; while (a > 3); else do a++; while (a < 3);
  print(a);
  do for (int i = 0; i < 3; i++) a += i; while (a < 30);
  print(a);
  return 0;
}
