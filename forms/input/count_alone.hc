// `n_in` without an array `in`, and an int named `in`.
// Whole turns: 2.
int in = 5;
int n_in = 6;

int main() {
  pwhile (in > n_in) in -= 3;
  in++;
  print(in);
  print(n_in);
}
