// Outer locals that are assigned deep inside a region: in inner loops, their clauses and `if`s.
// Whole turns: 3.
int main() {
  int p = 1, q = 2, r = 3, s = 4, t = 5;
  pfor (int i = 0; i < 3; i++) {
    for (p = i; p < 4; p++) q += p;
    while (r > 0) { r -= 2; pfor (s = 0; s < 2; s++) { { if (q % 2) t += s; else t -= r; } } }
    r = q % 5;
    print(p); print(q); print(r); print(s); print(t);
  }
  print(p + 10 * q + 100 * r + 1000 * s + 10000 * t);
}
