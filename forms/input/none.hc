// `in` and `n_in` without an input.
// Whole turns: 3.
int in[4] = {7, -8};
int n_in = 5;

int main() {
  print(n_in);
  pfor (int i = n_in; i < 3; i++) print(in[i]);
  in[1] += 3;
  n_in--;
  print(in[1] * n_in);
}
