// Looser than `||`, on both sides; operators before an operand bind tighter.
int main() {
  int a = 0;
  int b = 3;
  print(a || b ? 1 : 2);
  print(a && b ? 1 : a || b);
  print(b ? a || a : b);
  print(a ? 1 : a && b || b);
  print(a == 0 ? b + 1 : b - 1);
  print(!a ? ~b : -b);
  print(a | b ? a ^ b : a & b);
  print(b << 1 > 5 ? b >> 1 : b % 2);
  print(2 * (a ? 3 : 4) + 1);
  print(-(b ? 1 : 2));
  print((a ? 0 : 1) && (b ? 0 : 1));
  return 0;
}
