#include <stdio.h>

int lines;
int bytes;

int main(void) {
    int c = getchar();
    while (c != EOF) {
        bytes++;
        if (c == '\n') lines++;
        c = getchar();
    }
    printf("%d lines, %d bytes\n", lines, bytes);
    return 0;
}
