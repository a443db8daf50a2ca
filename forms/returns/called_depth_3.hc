// A function returns out of a `for` in a `pwhile` in a `for`.
// Whole turns: 44.
int probes;

int triple_of(int sum) {
  for (int i = 1; i < 8; i++) {
    int j = i;
    pwhile (j < 8) {
      for (int k = j; k < 8; k++) {
        probes++;
        if (i * i + j * j + k * k == sum) return i * 100 + j * 10 + k;
        if (k > 6) { if (sum > 140) { return -2; } break; }
      }
      j++;
    }
    print(i);
  }
  return -1;
}

int main() {
  print(triple_of(14));
  print(probes);
  print(triple_of(83));
  print(probes);
  print(triple_of(7));
  print(triple_of(141));
  print(probes);
  return 0;
}
