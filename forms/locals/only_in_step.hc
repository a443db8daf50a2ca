// Locals that only the step of a region assigns, or only its test reads.
// Whole turns: 10.
int main() {
  int step = 1, limit = 40, n = 0, last = 0;
  pfor (int i = 0; i < limit; i += step) { step += 1; n++; last = i; }
  print(step); print(limit); print(n); print(last);
  pfor (; n * n > limit; n--) print(n);
  print(n);
}
