#include <stdio.h>

int main(void) {
    int row = 1;
    int col;
    int skipped = 0;
    while (1) {
        if (row > 4) break;
        for (col = 1; col <= row; col++) {
            if (col == 3) { skipped += row; continue; }
            printf("%d ", row * col);
        }
        printf("\n");
        ++row;
    }
    for (int i = 10, j = 0; i > j; i -= 2) { j++; printf("%d %d\n", i, j); }
    return skipped;
}
