/* Calls that sleep until what they wait for has come, or until a deadline, over POSIX threads:
 * beside the calls of cqs.h, which never sleep.
 *
 *     struct cqs_semaphore *s;
 *     struct cqs_sleepers sleepers;                      // one for each primitive
 *     if (cqs_semaphore_new(3, 2, 100000, 1, &s) != CQS_NEW) return;
 *     if (cqs_sleepers_init(&sleepers)) return;
 *     ...
 *     struct cqs_answer a = cqs_semaphore_acquire_wait(s, &sleepers, pass);
 *     if (a.answer == CQS_NOW) {
 *         ...                                            // the pass has a permit
 *         cqs_semaphore_release_wake(s, &sleepers, pass);
 *     }
 *     ...
 *     cqs_sleepers_destroy(&sleepers);
 *     cqs_semaphore_drop(s);
 *
 * Those who wait so, and all who give something back, use these calls with the same `sleepers`: a
 * release of cqs.h wakes nobody. Each thread that may call at the same time has a pass of its own,
 * with room for one wait.
 * The synchronous semaphore has no calls here: what becomes of a permit that it takes back, who
 * releases has to say.
 *
 * What they answer. A call that comes answers what it did at once, or what became of its wait:
 *
 *     CQS_NOW, CQS_TOOK, CQS_PASSED, CQS_LAST    at once, as the call of cqs.h
 *     CQS_GRANTED, CQS_TOOK, CQS_THROUGH         after a wait, as a poll
 *     CQS_CANCELLED                              the deadline has come; the wait is over, and
 *                                                nothing came of it
 *     a refusal, CQS_WORN or CQS_CROWDED         as the call of cqs.h, at once: it doesn't sleep
 *                                                until there is a slot
 *
 * A call that gives back answers as that of cqs.h, and has finished what it owed: after a
 * CQS_UNDER, a CQS_LAST_OWING or a CQS_CONTENDED the answer is that of the last finish. After a
 * CQS_CROWDED the pass has what it was to give, and the call is to be made again.
 *
 * Deadlines are moments of CLOCK_MONOTONIC: cqs_deadline gives the moment after so many
 * nanoseconds. A null deadline is none.
 *
 * Who is woken: who waits by the number that was served, and with it those who share its part of
 * the table; each looks at its wait then, and no other time. */
#ifndef CQS_WAIT_H
#define CQS_WAIT_H
#include "cqs.h"
#include <pthread.h>
#include <sched.h>
#include <time.h>
#ifdef __cplusplus
extern "C" {
#endif

enum { CQS_PARTS = 16 };

/* Those whose waits have numbers of one kind. */
struct cqs_part {
    pthread_mutex_t lock;
    pthread_cond_t woken;
    unsigned sleeping;
};

/* Who sleeps at one primitive. */
struct cqs_sleepers {
    struct cqs_part parts[CQS_PARTS];
    pthread_mutex_t lock;
    /* How often something was left to a wait that was just being cancelled, or may have been. */
    uint64_t lefts;
};

/* Frees what it has. Nobody sleeps here any more. */
static inline void cqs_sleepers_destroy(struct cqs_sleepers *z) {
    for (int i = 0; i < CQS_PARTS; i++) {
        pthread_cond_destroy(&z->parts[i].woken);
        pthread_mutex_destroy(&z->parts[i].lock);
    }
    pthread_mutex_destroy(&z->lock);
}

/* 0, or an error number; then there is nothing to destroy. */
static inline int cqs_sleepers_init(struct cqs_sleepers *z) {
    pthread_condattr_t clock;
    int error = pthread_condattr_init(&clock);
    if (error) return error;
    error = pthread_condattr_setclock(&clock, CLOCK_MONOTONIC);
    if (!error) error = pthread_mutex_init(&z->lock, NULL);
    z->lefts = 0;
    int i = 0;
    for (; !error && i < CQS_PARTS; i++) {
        z->parts[i].sleeping = 0;
        error = pthread_mutex_init(&z->parts[i].lock, NULL);
        if (error) break;
        error = pthread_cond_init(&z->parts[i].woken, &clock);
        if (error) {
            pthread_mutex_destroy(&z->parts[i].lock);
            break;
        }
    }
    if (error && i > 0) {
        while (i-- > 0) {
            pthread_cond_destroy(&z->parts[i].woken);
            pthread_mutex_destroy(&z->parts[i].lock);
        }
    }
    if (error) pthread_mutex_destroy(&z->lock);
    pthread_condattr_destroy(&clock);
    return error;
}

/* The moment after so many nanoseconds. */
static inline struct timespec cqs_deadline(uint64_t nanoseconds) {
    struct timespec at;
    clock_gettime(CLOCK_MONOTONIC, &at);
    at.tv_sec += (time_t)(nanoseconds / 1000000000u);
    at.tv_nsec += (long)(nanoseconds % 1000000000u);
    if (at.tv_nsec >= 1000000000) {
        at.tv_sec += 1;
        at.tv_nsec -= 1000000000;
    }
    return at;
}

/* ---- What the calls below are written with ---- */

static inline void cqs_wake_part(struct cqs_part *part) {
    pthread_mutex_lock(&part->lock);
    if (part->sleeping) pthread_cond_broadcast(&part->woken);
    pthread_mutex_unlock(&part->lock);
}

static inline uint64_t cqs_lefts(struct cqs_sleepers *z, unsigned more) {
    pthread_mutex_lock(&z->lock);
    uint64_t lefts = z->lefts += more;
    pthread_mutex_unlock(&z->lock);
    return lefts;
}

/* Something was left in a cell, maybe to a wait that was just being cancelled; its canceller passes
 * it on, and nobody is told to whom. So all who sleep look: who was told that something was left
 * wakes them, and so does each whose cancel went on at that time, after it. */
static inline void cqs_wake_all(struct cqs_sleepers *z) {
    cqs_lefts(z, 1);
    for (int i = 0; i < CQS_PARTS; i++) cqs_wake_part(&z->parts[i]);
}

/* Goes on where an answer says so, and wakes whom it tells of. */
static inline struct cqs_answer cqs_and_wake(const void *at, struct cqs_sleepers *z, uint32_t pass,
                                             struct cqs_answer a) {
    for (int turn = 0;
         a.answer == CQS_UNDER || a.answer == CQS_LAST_OWING || a.answer == CQS_CONTENDED; turn++) {
        /* It may want the slot that another call is just about to give up. */
        if (turn >= 16) sched_yield();
        a = cqs_call(at, CQS_DO_FINISH, pass, 0);
    }
    if (a.answer == CQS_SENT) cqs_wake_part(&z->parts[(uint64_t)a.number % CQS_PARTS]);
    if (a.answer == CQS_LEFT || a.answer == CQS_LAST || a.answer == CQS_FINISHED) cqs_wake_all(z);
    return a;
}

/* Gives a wait up. */
static inline struct cqs_answer cqs_give_up(const void *at, struct cqs_sleepers *z, uint32_t pass,
                                            uint64_t wait) {
    uint64_t lefts = cqs_lefts(z, 0);
    struct cqs_answer a = cqs_call(at, CQS_DO_CANCEL, pass, wait);
    if (a.answer == CQS_CANCELLED_OWING) {
        struct cqs_answer owed = cqs_call(at, CQS_DO_FINISH, pass, 0);
        cqs_and_wake(at, z, pass, owed);
        a.answer = CQS_CANCELLED;
        a.number = -1;
    }
    if (a.answer == CQS_CONTENDED) a = cqs_and_wake(at, z, pass, a);
    if (a.answer == CQS_CANCELLED && cqs_lefts(z, 0) != lefts) cqs_wake_all(z);
    return a;
}

/* Comes, and sleeps until what it waits for has come, which is answered so, or until the
 * deadline. */
static inline struct cqs_answer cqs_enter_until(const void *at, struct cqs_sleepers *z,
                                                uint32_t pass, const struct timespec *deadline,
                                                uint32_t came) {
    struct cqs_answer a = cqs_and_wake(at, z, pass, cqs_call(at, CQS_DO_ENTER, pass, 0));
    if (a.answer != CQS_LATER) return a;
    uint64_t wait = (uint64_t)a.number;
    struct cqs_part *part = &z->parts[wait % CQS_PARTS];
    int error = 0;
    pthread_mutex_lock(&part->lock);
    part->sleeping++;
    while ((a = cqs_call(at, CQS_DO_POLL, pass, wait)).answer == CQS_PENDING && !error)
        error = deadline ? pthread_cond_timedwait(&part->woken, &part->lock, deadline)
                         : pthread_cond_wait(&part->woken, &part->lock);
    part->sleeping--;
    pthread_mutex_unlock(&part->lock);
    if (a.answer != CQS_PENDING) return a;
    a = cqs_give_up(at, z, pass, wait);
    if (a.answer == CQS_TOO_LATE) a.answer = came;
    return a;
}

/* ---- The semaphore ---- */

static inline struct cqs_answer cqs_semaphore_acquire_until(const struct cqs_semaphore *s,
                                                            struct cqs_sleepers *z, uint32_t pass,
                                                            const struct timespec *deadline) {
    return cqs_enter_until(s, z, pass, deadline, CQS_GRANTED);
}
static inline struct cqs_answer cqs_semaphore_acquire_wait(const struct cqs_semaphore *s,
                                                           struct cqs_sleepers *z, uint32_t pass) {
    return cqs_enter_until(s, z, pass, NULL, CQS_GRANTED);
}
static inline struct cqs_answer cqs_semaphore_release_wake(const struct cqs_semaphore *s,
                                                           struct cqs_sleepers *z, uint32_t pass) {
    return cqs_and_wake(s, z, pass, cqs_semaphore_release(s, pass));
}

/* ---- The mutex ---- */

static inline struct cqs_answer cqs_mutex_lock_until(const struct cqs_mutex *m,
                                                     struct cqs_sleepers *z, uint32_t pass,
                                                     const struct timespec *deadline) {
    return cqs_enter_until(m, z, pass, deadline, CQS_GRANTED);
}
static inline struct cqs_answer cqs_mutex_lock_wait(const struct cqs_mutex *m,
                                                    struct cqs_sleepers *z, uint32_t pass) {
    return cqs_enter_until(m, z, pass, NULL, CQS_GRANTED);
}
static inline struct cqs_answer cqs_mutex_unlock_wake(const struct cqs_mutex *m,
                                                      struct cqs_sleepers *z, uint32_t pass) {
    return cqs_and_wake(m, z, pass, cqs_mutex_unlock(m, pass));
}

/* ---- The pool ---- */

static inline struct cqs_answer cqs_pool_take_until(const struct cqs_pool *p,
                                                    struct cqs_sleepers *z, uint32_t pass,
                                                    const struct timespec *deadline) {
    return cqs_enter_until(p, z, pass, deadline, CQS_TOOK);
}
static inline struct cqs_answer cqs_pool_take_wait(const struct cqs_pool *p,
                                                   struct cqs_sleepers *z, uint32_t pass) {
    return cqs_enter_until(p, z, pass, NULL, CQS_TOOK);
}
static inline struct cqs_answer cqs_pool_put_wake(const struct cqs_pool *p, struct cqs_sleepers *z,
                                                  uint32_t pass, uint32_t element) {
    return cqs_and_wake(p, z, pass, cqs_pool_put(p, pass, element));
}

/* ---- The latch ---- */

static inline struct cqs_answer cqs_latch_wait_until(const struct cqs_latch *l,
                                                     struct cqs_sleepers *z, uint32_t pass,
                                                     const struct timespec *deadline) {
    return cqs_enter_until(l, z, pass, deadline, CQS_THROUGH);
}
static inline struct cqs_answer cqs_latch_wait_open(const struct cqs_latch *l,
                                                    struct cqs_sleepers *z, uint32_t pass) {
    return cqs_enter_until(l, z, pass, NULL, CQS_THROUGH);
}
static inline struct cqs_answer cqs_latch_count_down_wake(const struct cqs_latch *l,
                                                          struct cqs_sleepers *z, uint32_t pass) {
    return cqs_and_wake(l, z, pass, cqs_latch_count_down(l, pass));
}

/* ---- The barrier: the last one who arrives wakes the others ---- */

static inline struct cqs_answer cqs_barrier_arrive_until(const struct cqs_barrier *b,
                                                         struct cqs_sleepers *z, uint32_t pass,
                                                         const struct timespec *deadline) {
    return cqs_of_parties(cqs_enter_until(b, z, pass, deadline, CQS_THROUGH));
}
static inline struct cqs_answer cqs_barrier_arrive_wait(const struct cqs_barrier *b,
                                                        struct cqs_sleepers *z, uint32_t pass) {
    return cqs_of_parties(cqs_enter_until(b, z, pass, NULL, CQS_THROUGH));
}

#ifdef __cplusplus
}
#endif
#endif
