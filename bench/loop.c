/* Calls in two nested loops. */
#include <stdio.h>
#define REPEAT 1
int mix(int x, int y) { return (x * 31 + y) % 10007; }
int main(void) {
    int sum = 0;
    for (int r = 0; r < REPEAT; r++)
        for (int i = 0; i < 500; i++)
            for (int j = 0; j < 500; j++) sum = mix(sum, i + j);
    printf("%d\n", sum);
    return 0;
}
