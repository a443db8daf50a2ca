// A function named `in` and an array named `n_in`.
// Whole turns: 3.
int n_in[3] = {4, 5, 6};
int in(int x) { return n_in[x] * 2; }

int main() {
  pfor (int i = 0; i < 3; i++) n_in[i] += in(2 - i);
  for (int i = 0; i < 3; i++) print(n_in[i]);
}
