int main() { int s = 0; pfor (int i = 0; i < 200000; i = i + 1) { s = s + i; } print(s); return 0; }
