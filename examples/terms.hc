// Truth tables as in eqntott: the terms of a table, each a row of 0, 1 and 2 (for "either"), are brought into order. Its time goes into
// the comparison of two terms, a loop that ends at the first place where they differ. Here that is a plain loop, and each turn finds the
// place of one term among all others.
int term[640];
int place[40];
int order[40];

void make_terms() {
  int seed = 12345;
  for (int k = 0; k < 640; k++) {
    seed = (seed * 1103515245 + 12345) & 2147483647;
    // the first places of most terms are alike
    if (k % 16 < 9) term[k] = 1; else term[k] = (seed >> 16) % 3;
  }
}

// below 0, 0 or above 0, as the first term stands before the second one, is the same, or stands behind it
int compare(int one, int other) {
  for (int k = 0; k < 16; k++) {
    int a = term[one * 16 + k];
    int b = term[other * 16 + k];
    if (a == 2) a = 0;
    if (b == 2) b = 0;
    if (a != b) return a - b;
  }
  return 0;
}

int main() {
  make_terms();
  pfor (int one = 0; one < 40; one++) {
    int before = 0;
    for (int other = 0; other < 40; other++) {
      int c = compare(other, one);
      if (c < 0 || (c == 0 && other < one)) before++;
    }
    place[one] = before;
  }

  for (int one = 0; one < 40; one++) order[place[one]] = one;
  for (int k = 0; k < 40; k++) print(order[k]);
  return 0;
}
