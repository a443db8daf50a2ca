// Ways through a maze from six places, the shortest by breadth, with marked beginnings and sums.
int dist[4096];
int queue[4096];
int main() {
  int total = 0;
  for (int s = 0; s < 6; s++) {
    pfor (int i = 0; i < 4096; i++) dist[i] = -1;
    int head = 0; int tail = 1;
    queue[0] = s * 600; dist[s * 600] = 0;
    while (head < tail) {
      int u = queue[head]; head = head + 1;
      int x = u & 63; int y = u >> 6; int d = dist[u] + 1;
      if (x > 0) { if (dist[u - 1] < 0) { if ((u * 7) % 5 != 0) { dist[u - 1] = d; queue[tail] = u - 1; tail++; } } }
      if (x < 63) { if (dist[u + 1] < 0) { dist[u + 1] = d; queue[tail] = u + 1; tail++; } }
      if (y > 0) { if (dist[u - 64] < 0) { dist[u - 64] = d; queue[tail] = u - 64; tail++; } }
      if (y < 63) { if (dist[u + 64] < 0) { if ((u * 3) % 4 != 0) { dist[u + 64] = d; queue[tail] = u + 64; tail++; } } }
    }
    pfor (int i = 0; i < 4096; i++) total = total + dist[i];
  }
  print(total);
  return 0;
}
