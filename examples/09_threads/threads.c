#include <stdio.h>
#include <pthread.h>
#define WORKERS 4

pthread_t workers[WORKERS];
pthread_mutex_t lock = PTHREAD_MUTEX_INITIALIZER;
int turns;
int sum;

void *work(void *arg) {
    for (int i = 1; i <= 25; i++) {
        pthread_mutex_lock(&lock);
        turns++;
        sum += i;
        pthread_mutex_unlock(&lock);
    }
    return NULL;
}

int main(void) {
    for (int i = 0; i < WORKERS; i++) pthread_create(&workers[i], NULL, work, NULL);
    for (int i = 0; i < WORKERS; i++) pthread_join(workers[i], NULL);
    printf("%d turns, sum %d\n", turns, sum);
    return 0;
}
