// A walk over a linked list: where the next turn goes is known only from this one's cell.
// A list is two arrays, and a cell's number stands for a pointer to it; -1 ends the list.
int value[64];
int next[64];
int first = -1;
int cells;

void insert_in_order(int v) {
  int fresh = cells;
  cells++;
  value[fresh] = v;
  int before = -1;
  int at = first;
  // `&&` skips its right side where the left is 0, so value[-1] is never read
  while (at != -1 && value[at] < v) {
    before = at;
    at = next[at];
  }
  next[fresh] = at;
  if (before == -1) first = fresh; else next[before] = fresh;
}

int main() {
  for (int i = 0; i < 64; i++) insert_in_order((i * 37 + 11) % 101);

  int cell = first;
  int length = 0;
  int sum = 0;
  pwhile (cell != -1) {
    sum += value[cell];
    if (length < 10) print(value[cell]);
    length++;
    cell = next[cell];
  }
  print(length);
  print(sum);
  return 0;
}
