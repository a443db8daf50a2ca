// In the turns of a `pfor`: what is read in one arm alone is taken along.
// Whole turns: 6.
int a[6];

int main() {
  int odd = 3;
  int even = 4;
  int s = 0;
  int last = -1;
  pfor (int i = 0; i < 6; i++) {
    a[i] = i % 2 ? odd * i : even;
    s += last < 0 ? 100 : a[last];
    last = i > 2 ? last : i;
  }
  print(s);
  print(last);
  for (int i = 0; i < 6; i++) print(a[i]);
  return 0;
}
