// A region that carries twelve locals and copies four.
// Whole turns: 3.
int main() {
  int a = 1, b = 2, c = 3, d = 4, e = 5, f = 6, g = 7, h = 8;
  int j = 9, k = 10, l = 11, m = 12, n = 13, o = 14, p = 15;
  pfor (int i = 0; i < 3; i++) {
    a += b; b += c; c += d; d += e; e += m; f += n; g += o; h += p;
    j -= a; k -= f; l -= k;
  }
  print(a); print(b); print(c); print(d); print(e); print(f); print(g); print(h);
  print(j); print(k); print(l); print(m); print(n); print(o); print(p);
}
