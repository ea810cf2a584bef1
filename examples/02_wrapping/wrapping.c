int main(void) {
    int a;
    a = 2147483647;
    a = a + 1;
    printf("%d is below 0: %d\n", a, a < 0);
    return a - 1;
}
