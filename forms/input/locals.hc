// Locals and parameters named `in` and `n_in`.
// Whole turns: 5.
int in[4];
int n_in;

int f(int in, int n_in) {
  pfor (int i = 0; i < n_in; i++) in += n_in;
  return in;
}

int main() {
  int s = f(in[0], in[1]);
  {
    int n_in = 2;
    pfor (int in = 0; in < n_in; in++) s += in;
  }
  print(s);
  print(n_in);
  print(in[2]);
}
