// Carried and copied locals as indexes, in a region that writes the elements.
// Whole turns: 6.
int a[10] = {1, 2, 3, 4, 5, 6, 7, 8, 9, 0};

int main() {
  int at = 0, base = 2, sum = 0;
  pfor (int i = 0; i < 6; i++) {
    sum += a[at];
    a[at] = -a[at];
    a[(at + base) % 10] += a[base];
    at = (at * 3 + base + 5) % 10;
    print(at);
  }
  print(sum);
  for (int i = 0; i < 10; i++) print(a[i]);
}
