// Prefix sums in rounds: in each round every element adds the one that stands `far` before it,
// and `far` doubles. The turns of a round read one array and write another.
int sums[32];
int fresh[32];

int main() {
  int length = 32;
  for (int i = 0; i < length; i++) sums[i] = i * i - 20 * i;

  for (int far = 1; far < length; far *= 2) {
    pfor (int i = 0; i < length; i++) {
      if (i < far) fresh[i] = sums[i];
      else fresh[i] = sums[i - far] + sums[i];
    }
    pfor (int i = 0; i < length; i++) sums[i] = fresh[i];
  }

  for (int i = 0; i < length; i++) print(sums[i]);
  return 0;
}
