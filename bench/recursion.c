/* A function that calls itself twice. */
#include <stdio.h>
#define REPEAT 1
int fib(int n) {
    int a;
    int b;
    if (n < 2) return n;
    a = fib(n - 1);
    b = fib(n - 2);
    return a + b;
}
int main(void) {
    int sum = 0;
    for (int r = 0; r < REPEAT; r++) sum = (sum + fib(23)) % 10007;
    printf("%d\n", sum);
    return 0;
}
