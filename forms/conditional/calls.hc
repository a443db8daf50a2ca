// Calls in the test and in both arms: the test's first, and then one alone.
int n;

int shows(int k) {
  n++;
  print(k);
  return k;
}

int twice(int k) {
  return k > 3 ? k : twice(k * 2);
}

int main() {
  print(shows(1) ? shows(2) : shows(3));
  print(shows(0) ? shows(4) : shows(5));
  print(shows(shows(0) ? 6 : 7) ? shows(8) : 9);
  shows(n > 3 ? shows(10) : 11);
  print(n);
  print(twice(1));
  return 0;
}
