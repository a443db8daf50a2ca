// Three marked loops inside one another, with locals at each depth.
// Whole turns: 2.
int main() {
  int s = 1;
  pfor (int i = 0; i < 2; i++) {
    int t = s + i;
    pfor (int j = 0; j < 3; j++) {
      int u = t * 2 + j;
      int k = 0;
      pwhile (k < 2) {
        int v = u + k;
        s += v;
        t++;
        u -= 3;
        k++;
      }
      print(u);
    }
    print(t);
    print(s);
  }
  print(s);
}
