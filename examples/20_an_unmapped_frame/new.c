int n; int main(void) { while (n < 4) { n = n + 1; printf("new %d\n", n); } return 0; }
