// Sets that are joined, 6,000 times, each root by a call.
int parent[5000];
int root(int x) {
  while (parent[x] != x) { parent[x] = parent[parent[x]]; x = parent[x]; }
  return x;
}
int main() {
  pfor (int i = 0; i < 5000; i++) parent[i] = i;
  int seed = 5; int joined = 0;
  for (int k = 0; k < 6000; k++) {
    seed = (seed * 1309 + 13849) % 65536;
    int a = root(seed % 5000);
    seed = (seed * 1309 + 13849) % 65536;
    int b = root(seed % 5000);
    if (a != b) { parent[a] = b; joined++; }
  }
  print(joined);
  return 0;
}
