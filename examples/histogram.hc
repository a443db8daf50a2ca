// A histogram of the input: how often each number from 0 to 15 stands there, as bars of stars.
// Two turns that meet the same number write the same element: then the later one counts on
// from what the earlier one wrote.
int in[60000];
int n_in;
int times[16];
int others;

int main() {
  pfor (int i = 0; i < n_in; i++) {
    int n = in[i];
    if (n < 0 || n > 15) {
      others++;
      continue;
    }
    times[n]++;
  }

  for (int n = 0; n < 16; n++) {
    // the number in two places
    if (n < 10) emit(32); else emit(48 + n / 10);
    emit(48 + n % 10);
    emit(32);
    for (int k = 0; k < times[n]; k++) emit(42);
    emit(10);
  }
  print(others);
  return 0;
}
