int ack(int m, int n) { if (m == 0) { return n + 1; } if (n == 0) { return ack(m - 1, 1); } return ack(m - 1, ack(m, n - 1)); }
int main() { int s = 0; for (int i = 0; i < 300; i = i + 1) { s = s + ack(2, 6); } print(s); return 0; }
