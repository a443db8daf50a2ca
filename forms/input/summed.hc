// A sum of the input, which doesn't fill the array.
// Whole turns: 5.
int in[8] = {1, 2, 3, 4, 5, 6, 70, 80};
int n_in = -3;

int main() {
  int s = 0;
  pfor (int i = 0; i < n_in; i++) s += in[i];
  print(s);
  print(n_in);
  for (int i = 0; i < 8; i++) print(in[i]);
  return s;
}
