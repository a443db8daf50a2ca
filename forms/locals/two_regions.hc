// Two regions of one function that carry different locals, and a third that carries them all.
// Whole turns: 11.
int f(int p, int q) {
  int r = p + q, s = p - q;
  pfor (int i = 0; i < 3; i++) { p += r; s -= p; }
  print(p); print(q); print(r); print(s);
  pwhile (q < 40) { q = q * 2 + s % 2; r--; }
  print(p); print(q); print(r); print(s);
  pfor (int i = 0; i < 4; i++) { p++; q += p; r += q; s += r; }
  return p + q * 2 + r * 3 + s * 5;
}

int main() {
  print(f(1, 5));
}
