// Eight parameters, some of which a region assigns and some of which it only reads.
// Whole turns: 3.
int f(int p, int q, int r, int s, int t, int u, int v, int w) {
  pfor (int i = 0; i < 3; i++) {
    q += p;
    s -= q;
    print(r);
    u = u * t + i;
    w += v;
  }
  print(p); print(q); print(r); print(s); print(t); print(u); print(v); print(w);
  return p + q + r + s + t + u + v + w;
}

int main() {
  int x = 3;
  print(f(1, 2, x, 4, 5, 6, 7, 8));
  print(x);
  return 0;
}
