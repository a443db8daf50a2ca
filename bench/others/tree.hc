// A search tree of 3,000 numbers, built by recursion, and 20,000 marked searches in it.
int key[4001]; int left[4001]; int right[4001]; int size;
int insert(int at, int k) {
  if (at == 0) { size++; key[size] = k; return size; }
  if (k < key[at]) left[at] = insert(left[at], k);
  else right[at] = insert(right[at], k);
  return at;
}
int main() {
  int root = 0;
  int s = 99;
  for (int i = 0; i < 3000; i++) { s = (s * 75 + 74) % 65537; root = insert(root, s); }
  int found = 0;
  pfor (int q = 0; q < 20000; q++) {
    int at = root;
    while (at != 0 && key[at] != q) { if (q < key[at]) at = left[at]; else at = right[at]; }
    if (at != 0) found++;
  }
  print(found);
  return 0;
}
