int n; int main(void) { while (n < 4) { n = n + 1; printf("old %d\n", n); } return 0; }
