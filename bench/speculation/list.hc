// A walk through a list, a turn for each of its places.
int next[4096];
int main() {
  for (int k = 0; k < 4096; k++) next[k] = (k + 1365) % 4096;
  int place = 0;
  int turns = 0;
  int sum = 0;
  pwhile (turns < 8192) {
    place = next[place];
    sum += place % 3;
    turns++;
  }
  print(sum);
  return 0;
}
