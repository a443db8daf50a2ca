// `in` and `n_in` in functions that a region calls.
// Whole turns: 6.
int n_in;
int in[5];

int pop() { n_in--; return in[n_in]; }
void push(int x) { in[n_in] = x; n_in++; }

int main() {
  int s = 0;
  pfor (int i = 0; i < 2; i++) {
    int x = pop();
    int y = pop();
    push(x - y);
    push(x * y);
    s += x;
    print(x);
  }
  print(s);
  pwhile (n_in) print(pop());
}
