#include <stdio.h>

int share(int sum, int people) {
    return sum / people;
}

int main(void) {
    for (int people = 2; people >= 0; people--) printf("%d\n", share(10, people));
    return 0;
}
