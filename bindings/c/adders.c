/* Two threads add to a plain number behind a mutex, each with a pass of its own. Who waits sleeps. */
#include "cqs_wait.h"
#include <stdio.h>

enum { ROUNDS = 5000 };

static struct cqs_mutex *mutex;
static struct cqs_sleepers sleepers;
static long sum;

static int lock(uint32_t pass) {
    struct cqs_answer a = cqs_mutex_lock_wait(mutex, &sleepers, pass);
    return a.answer == CQS_NOW || a.answer == CQS_GRANTED;
}

static void *add(void *of) {
    uint32_t pass = *(uint32_t *)of;
    for (int round = 0; round < ROUNDS && lock(pass); round++) {
        sum++;
        cqs_mutex_unlock_wake(mutex, &sleepers, pass);
    }
    return NULL;
}

int main(void) {
    if (cqs_mutex_new(2, 2 * ROUNDS, 1, &mutex) != CQS_NEW) return 1;
    if (cqs_sleepers_init(&sleepers)) return 1;
    uint32_t one = 0, two = (uint32_t)cqs_mutex_split(mutex, 0).number;
    pthread_t first, second;
    if (pthread_create(&first, NULL, add, &one) || pthread_create(&second, NULL, add, &two)) return 1;
    pthread_join(first, NULL);
    pthread_join(second, NULL);
    printf("the sum is %ld\n", sum);
    cqs_sleepers_destroy(&sleepers);
    cqs_mutex_drop(mutex);
    return 0;
}
