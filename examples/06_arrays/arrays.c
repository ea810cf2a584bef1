#include <stdio.h>
#define COUNT 8

int data[COUNT];

void fill(int seed) {
    for (int i = 0; i < COUNT; i++) {
        seed = seed * 17 % 101;
        data[i] = seed;
    }
}

void sort(void) {
    for (int i = 1; i < COUNT; i++) {
        int value = data[i];
        int j = i;
        while (j > 0 && data[j - 1] > value) {
            data[j] = data[j - 1];
            j--;
        }
        data[j] = value;
    }
}

int main(void) {
    fill(5);
    for (int i = 0; i < COUNT; i++) printf("%d ", data[i]);
    printf("\n");
    sort();
    for (int i = 0; i < COUNT; i++) printf("%d ", data[i]);
    printf("\n");
    return data[0];
}
