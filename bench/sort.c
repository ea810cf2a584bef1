/* An array is filled with drawn numbers and sorted by insertion. */
#include <stdio.h>
#define REPEAT 1
#define COUNT 1000
int a[COUNT];
int main(void) {
    int x = 1;
    int sum = 0;
    for (int r = 0; r < REPEAT; r++) {
        for (int i = 0; i < COUNT; i++) {
            x = (x * 75 + 74) % 65537;
            a[i] = x;
        }
        for (int i = 1; i < COUNT; i++) {
            int v = a[i];
            int j = i;
            while (j > 0 && a[j - 1] > v) {
                a[j] = a[j - 1];
                j--;
            }
            a[j] = v;
        }
        sum = (sum + a[COUNT / 2]) % 10007;
    }
    printf("%d\n", sum);
    return 0;
}
