/* Sixteen threads share three permits and stop waiting when their time is over; then they meet at a
 * barrier, from which some withdraw on the way. */
#include "cqs_wait.h"
#include <stdio.h>

enum { THREADS = 16, PERMITS = 3, ROUNDS = 400 };

static struct cqs_semaphore *semaphore;
static struct cqs_barrier *barrier;
static struct cqs_latch *never;
static struct cqs_sleepers at_semaphore, at_barrier, at_never;
static pthread_mutex_t count = PTHREAD_MUTEX_INITIALIZER;
static int inside, most, worked, late;

struct caller {
    uint32_t semaphore, barrier, never;
    int through;
};

static void note(int comes) {
    pthread_mutex_lock(&count);
    inside += comes;
    if (inside > most) most = inside;
    if (comes > 0) worked++;
    pthread_mutex_unlock(&count);
}

static void *call(void *of) {
    struct caller *caller = of;
    uint32_t chance = 1 + caller->semaphore;
    for (int round = 0; round < ROUNDS; round++) {
        chance = chance * 1664525u + 1013904223u;
        struct timespec deadline = cqs_deadline((chance >> 16) % 200000);
        int may_sleep = (chance >> 8) % 2;
        struct cqs_answer a = cqs_semaphore_acquire_until(
            semaphore, &at_semaphore, caller->semaphore, may_sleep ? NULL : &deadline);
        if (a.answer == CQS_CANCELLED) {
            pthread_mutex_lock(&count);
            late++;
            pthread_mutex_unlock(&count);
            continue;
        }
        if (a.answer != CQS_NOW && a.answer != CQS_GRANTED) return NULL;
        note(1);
        note(-1);
        cqs_semaphore_release_wake(semaphore, &at_semaphore, caller->semaphore);
    }
    struct timespec soon = cqs_deadline(1000000);
    if (cqs_latch_wait_until(never, &at_never, caller->never, &soon).answer != CQS_CANCELLED)
        return NULL;
    struct cqs_answer a;
    do {
        struct timespec deadline = cqs_deadline((chance >> 16) % 100000);
        a = cqs_barrier_arrive_until(barrier, &at_barrier, caller->barrier, &deadline);
        chance = chance * 1664525u + 1013904223u;
    } while (a.answer == CQS_CANCELLED && (chance >> 16) % 8 != 0);
    if (a.answer == CQS_CANCELLED)
        a = cqs_barrier_arrive_wait(barrier, &at_barrier, caller->barrier);
    caller->through = a.answer == CQS_LAST || a.answer == CQS_FINISHED || a.answer == CQS_THROUGH;
    return NULL;
}

int main(void) {
    struct caller callers[THREADS];
    pthread_t threads[THREADS];
    if (cqs_semaphore_new(PERMITS, THREADS + 1, 100000, 1, &semaphore) != CQS_NEW) return 1;
    if (cqs_barrier_new(THREADS, THREADS + 1, 100000, 1, &barrier) != CQS_NEW) return 1;
    if (cqs_latch_new(1, THREADS + 1, THREADS, 1, &never) != CQS_NEW) return 1;
    if (cqs_sleepers_init(&at_semaphore) || cqs_sleepers_init(&at_barrier)) return 1;
    if (cqs_sleepers_init(&at_never)) return 1;
    for (int i = 0; i < THREADS; i++) {
        callers[i].semaphore = (uint32_t)cqs_semaphore_split(semaphore, 0).number;
        callers[i].barrier = (uint32_t)cqs_barrier_split(barrier, 0, 1).number;
        callers[i].never = (uint32_t)cqs_latch_split(never, 0).number;
        callers[i].through = 0;
    }
    for (int i = 0; i < THREADS; i++)
        if (pthread_create(&threads[i], NULL, call, &callers[i])) return 1;
    int through = 0;
    for (int i = 0; i < THREADS; i++) {
        pthread_join(threads[i], NULL);
        through += callers[i].through;
    }
    printf("%d rounds, each over or late\n", worked + late);
    printf("%s\n", most <= PERMITS ? "never more than its permits" : "more than its permits");
    printf("state %d\n", (int)cqs_semaphore_state(semaphore, 0).number);
    printf("%d are through\n", through);
    printf("%s\n", cqs_answer_name(cqs_barrier_arrive(barrier, callers[0].barrier).answer));
    cqs_sleepers_destroy(&at_semaphore);
    cqs_sleepers_destroy(&at_barrier);
    cqs_sleepers_destroy(&at_never);
    cqs_semaphore_drop(semaphore);
    cqs_barrier_drop(barrier);
    cqs_latch_drop(never);
    return 0;
}
