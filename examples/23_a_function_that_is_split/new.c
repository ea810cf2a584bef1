int n; int go(int k) { while (n < k) { n = n + 1; printf("new %d\n", n); } return n; } int main(void) { int r; r = go(4); return r; }
