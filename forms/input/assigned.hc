// `in` and `n_in` are assigned, in a region and outside.
// Whole turns: 8.
int in[6];
int n_in;

int main() {
  in[4] = 11;
  n_in += 2;
  pfor (int i = 0; i < n_in; i++) {
    in[i] = in[i] * 2 + i;
    if (i > 0) in[i - 1] += in[i];
    if (i == 1) n_in++;
    print(in[i]);
  }
  print(n_in);
  n_in = 100;
  pwhile (n_in > 10) { n_in /= 5; in[5] ^= n_in; }
  for (int i = 0; i < 6; i++) print(in[i]);
  print(n_in);
}
