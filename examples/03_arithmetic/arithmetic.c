#include <stdio.h>
#define MASK 255

int main(void) {
    int seven = 7;
    int two = 2;
    printf("%d %d\n", seven / two, -seven / two);
    printf("%d %d\n", seven % two, -seven % two);
    printf("%d %d %d\n", 1 << 5, -32 >> 3, 0x1f2 & MASK);
    printf("%d %d %d\n", 6 ^ 3, 6 | 3, ~6);
    printf("%d %d\n", seven > two && two > 0, !seven || seven == 2);
    printf("%d%%\n", 'a' + 010);
    return (seven + two) * 11;
}
