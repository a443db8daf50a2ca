int f(int x) { return x * 3 + 1; }
int main() { int s = 0; for (int i = 0; i < 400000; i = i + 1) { s = s + f(i); } print(s); return 0; }
