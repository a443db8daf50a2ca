// Input that just fills the array.
// Whole turns: 3.
int in[3];
int n_in;

int main() {
  pfor (int i = 0; i < n_in; i++) print(in[i]);
}
