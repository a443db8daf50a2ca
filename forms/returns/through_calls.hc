// Values that return through many calls at once: a call's own value, a number, a sum, a sum with a number, a product; and others behind
// which a function still does something.
int deepest;
int shares[8];

int same(int n) {
  if (n == 0) {
    return 7;
  }
  return same(n - 1);
}

int sum(int n) {
  if (n == 0) {
    return 0;
  }
  return n + sum(n - 1);
}

int count(int n) {
  if (n == 0) {
    return 0;
  }
  return count(n - 1) + 1;
}

int product(int n) {
  if (n == 0) {
    return 1;
  }
  return n * product(n - 1);
}

int noted(int n) {
  if (n == 0) {
    return 0;
  }
  int below = noted(n - 1);
  deepest = deepest + n;
  return below + deepest;
}

int odd_or_even(int n, int odd) {
  if (n == 0) {
    return odd;
  }
  if (odd) {
    return odd_or_even(n - 1, 0);
  }
  return odd_or_even(n - 1, 1) + 0;
}

int common(int x, int y) {
  if (y == 0) {
    return x;
  }
  return common(y, x % y);
}

int main() {
  int s = 0;
  for (int n = 0; n < 61; n = n + 20) {
    print(same(n));
    print(sum(n));
    print(count(n));
    print(odd_or_even(n, 0));
  }
  print(product(12));
  print(noted(9));
  print(deepest);
  pfor (int i = 0; i < 8; i++) {
    shares[i] = common(360, i * 15 + 1) + sum(i);
    s = s + count(i) + common(i * 6, 84);
  }
  for (int i = 0; i < 8; i++) {
    print(shares[i]);
  }
  print(s);
  return sum(10) + same(3);
}
