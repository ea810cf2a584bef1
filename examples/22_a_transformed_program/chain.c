int n;
int bottom(int x) { while (1) { n = n + x; if (n > 3) return n; } return 0; }
int main(void) { printf("%d\n", bottom(2) + 1); return 0; }
