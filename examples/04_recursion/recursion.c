#include <stdio.h>

int is_odd(int n);

int is_even(int n) {
    if (n == 0) return 1;
    return is_odd(n - 1);
}

int is_odd(int n) {
    if (n == 0) return 0;
    return is_even(n - 1);
}

int fib(int n) {
    if (n < 2) { return n; }
    return fib(n - 1) + fib(n - 2);
}

int main(void) {
    printf("%d %d\n", is_even(10), is_odd(10));
    for (int i = 0; i < 12; i++) printf("fib %d is %d\n", i, fib(i));
    return fib(10);
}
