#include <stdio.h>

int down(int k) {
    int r;
    if (k == 0) { return 0; }
    r = down(k - 1);
    return r + 1;
}

int main(void) {
    printf("%d\n", down(9999));
    return 0;
}
