// `break` and `continue` at each depth of a `do` in a `do` in a `do`.
int main() {
  int i = 0;
  do {
    int j = 0;
    do {
      int k = 0;
      do {
        k++;
        if (k == 2) continue;
        if (k > i + j) break;
        print(i * 100 + j * 10 + k);
      } while (k < 4);
      j++;
      if (j == 2) continue;
      if (j > i + 1) break;
      print(j);
    } while (j < 4);
    i++;
    if (i == 2) continue;
    if (i == 4) break;
    print(-i);
  } while (i < 6);
  print(i);
  return 0;
}
