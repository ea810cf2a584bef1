/* A list is built on the heap, summed up and freed. */
#include <stdio.h>
#include <stdlib.h>
#define REPEAT 1
struct node { int value; struct node *next; };
int main(void) {
    int sum = 0;
    for (int r = 0; r < REPEAT; r++) {
        struct node *head = NULL;
        for (int i = 0; i < 50000; i++) {
            struct node *n = malloc(sizeof(struct node));
            n->value = i % 100;
            n->next = head;
            head = n;
        }
        for (struct node *n = head; n != NULL; n = n->next) sum = (sum + n->value) % 10007;
        while (head != NULL) {
            struct node *n = head->next;
            free(head);
            head = n;
        }
    }
    printf("%d\n", sum);
    return 0;
}
