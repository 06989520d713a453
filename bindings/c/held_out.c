/* Four threads share two permits of a synchronous semaphore. A release whose caller is late has the
 * permit again, and gives it to the next one; that caller comes again. How often this happens is up
 * to the threads; what is printed isn't. */
#include "cqs.h"
#include <pthread.h>
#include <sched.h>
#include <stdio.h>

/* A thread has one wait at a time; room for more makes more slots, so that none is ever crowded. */
enum { THREADS = 4, PERMITS = 2, LOOKS = 2, ROUNDS = 2000, WAITS = 64, PATIENCE = 3 };

static struct cqs_sync_semaphore *semaphore;

/* What a thread was told. */
struct caller {
    uint32_t pass;
    int served, gave_up;
    /* permits that came back to it, and acquires whose permit had been taken back */
    int came_back, was_late;
};

/* The wait, or -1 where it has a permit at once; -2 where it is refused. */
static int64_t acquire(struct caller *caller) {
    for (;;) {
        struct cqs_answer a = cqs_sync_semaphore_acquire(semaphore, caller->pass);
        if (a.answer == CQS_LATER) return a.number;
        if (a.answer != CQS_BROKE) return a.answer == CQS_NOW ? -1 : -2;
        caller->was_late++;
    }
}

/* What became of the wait: it is served, or given up after some looks. */
static uint32_t wait_for(struct caller *caller, uint64_t wait) {
    for (int look = 0; look < PATIENCE; look++) {
        struct cqs_answer a = cqs_sync_semaphore_poll(semaphore, caller->pass, wait);
        if (a.answer != CQS_PENDING) return a.answer;
        sched_yield();
    }
    return cqs_sync_semaphore_cancel(semaphore, caller->pass, wait).answer;
}

/* Gives the permit, until it is gone. */
static int give(struct caller *caller) {
    struct cqs_answer a = cqs_sync_semaphore_release(semaphore, caller->pass);
    for (;;) {
        switch (a.answer) {
        case CQS_BROKE:
            caller->came_back++;
            a = cqs_sync_semaphore_release(semaphore, caller->pass);
            break;
        case CQS_HANDLING: /* goes on once that caller has left */
        case CQS_UNDER:
            sched_yield();
            a = cqs_sync_semaphore_finish(semaphore, caller->pass);
            break;
        default:
            return a.answer == CQS_FREED || a.answer == CQS_SENT || a.answer == CQS_VOID;
        }
    }
}

static void *work(void *of) {
    struct caller *caller = of;
    for (int round = 0; round < ROUNDS; round++) {
        int64_t wait = acquire(caller);
        if (wait < -1) return NULL;
        uint32_t answer = wait < 0 ? CQS_NOW : wait_for(caller, (uint64_t)wait);
        if (answer == CQS_CANCELLED) {
            caller->gave_up++;
            continue;
        }
        if (answer != CQS_NOW && answer != CQS_GRANTED && answer != CQS_TOO_LATE) return NULL;
        sched_yield(); /* its work */
        if (!give(caller)) return NULL;
        caller->served++;
    }
    return NULL;
}

int main(void) {
    struct caller callers[THREADS];
    pthread_t threads[THREADS];
    uint32_t passes = THREADS + 1;
    if (cqs_sync_semaphore_new(PERMITS, LOOKS, passes, 1000000, WAITS, &semaphore) != CQS_NEW)
        return 1;
    for (int i = 0; i < THREADS; i++) {
        uint32_t pass = (uint32_t)cqs_sync_semaphore_split(semaphore, 0).number;
        callers[i] = (struct caller){.pass = pass};
    }
    for (int i = 0; i < THREADS; i++)
        if (pthread_create(&threads[i], NULL, work, &callers[i])) return 1;
    int served = 0, gave_up = 0, came_back = 0, was_late = 0, met = 0;
    for (int i = 0; i < THREADS; i++) {
        pthread_join(threads[i], NULL);
        served += callers[i].served;
        gave_up += callers[i].gave_up;
        came_back += callers[i].came_back;
        was_late += callers[i].was_late;
        met += cqs_sync_semaphore_meet(semaphore, 0, callers[i].pass).answer == CQS_MET;
    }
    printf("%d rounds, each served or given up\n", served + gave_up);
    printf("as many were late as permits came back: %s\n", came_back == was_late ? "yes" : "no");
    printf("%d passes are taken in, and the last one is sole: %s\n", met,
           cqs_sync_semaphore_sole(semaphore, 0).number == 1 ? "yes" : "no");
    printf("state %d\n", (int)cqs_sync_semaphore_state(semaphore, 0).number);
    cqs_sync_semaphore_drop(semaphore);
    return 0;
}
