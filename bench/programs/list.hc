// Two hundred walks along a linked list of 20011 nodes.
int next[20011];
int value[20011];

int main() {
  int i;
  for (i = 0; i < 20011; i++) {
    next[i] = (i + 7919) % 20011;
    value[i] = i & 15;
  }
  int sum = 0;
  int walk;
  for (walk = 0; walk < 200; walk++) {
    int at = walk;
    int steps = 0;
    while (steps < 20011) {
      sum += value[at];
      at = next[at];
      steps++;
    }
  }
  print(sum);
  return 0;
}
