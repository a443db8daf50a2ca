// An array `in` without `n_in`, and with numbers read as indexes.
// Whole turns: 6.
int in[6] = {9, 9, 9, 9, 9, 9};

int main() {
  int at = 0, n = 0;
  pwhile (n < 6) { print(at); at = in[at]; n++; if (at > 5) at -= 5; }
  print(in[5]);
}
