// A marked loop in a plain one in a marked one, and the other way round.
// Whole turns: 11.
int c[4];

int main() {
  pfor (int i = 0; i < 3; i++)
    for (int j = 0; j < 2; j++)
      pfor (int k = 0; k < 2; k++) c[i] += 10 * j + k;
  for (int i = 0; i < 2; i++)
    pfor (int j = 0; j < 4; j++)
      for (int k = 0; k < j; k++) c[3] += i + k;
  for (int i = 0; i < 4; i++) print(c[i]);
}
