#include <stdio.h>
#include <stdlib.h>

struct node { int value; struct node *next; };

struct node *push(struct node *list, int value) {
    struct node *head = malloc(sizeof(struct node));
    head->value = value;
    head->next = list;
    return head;
}

struct node *reversed(struct node *list) {
    struct node *done = NULL;
    while (list != NULL) {
        struct node *next = list->next;
        list->next = done;
        done = list;
        list = next;
    }
    return done;
}

int show(struct node *list) {
    int sum = 0;
    for (struct node *n = list; n; n = n->next) {
        printf("%d ", n->value);
        sum += n->value;
    }
    printf("\n");
    return sum;
}

int main(void) {
    struct node *list = NULL;
    for (int i = 1; i <= 6; i++) list = push(list, i * i);
    show(list);
    list = reversed(list);
    int sum = show(list);
    while (list != NULL) {
        struct node *next = list->next;
        free(list);
        list = next;
    }
    return sum;
}
