/* Fair primitives that callers can stop waiting for: a semaphore, one that is synchronous, a mutex,
 * a pool, a count-down latch, and a barrier. No call blocks, sleeps, spins or takes a lock; a
 * release of the synchronous one looks at its permit a stated number of times at most.
 *
 * Each primitive has passes. A pass is what one caller works with: it holds what it was given, and
 * has waits. Passes are named by numbers below `passes`, and a wait by the number that its call
 * answered. Waiting is the caller's: poll the wait in a loop, after a sleep, or from an executor.
 * Calls that sleep, with a deadline or without, are in cqs_wait.h.
 *
 *     struct cqs_semaphore *s;
 *     if (cqs_semaphore_new(3, 2, 100000, 8, &s) != CQS_NEW) return;
 *     struct cqs_answer a = cqs_semaphore_acquire(s, 0);
 *     if (a.answer == CQS_LATER) {
 *         int64_t wait = a.number;
 *         while (cqs_semaphore_poll(s, 0, wait).answer == CQS_PENDING) sched_yield();
 *     }
 *     ...                                        // CQS_NOW or CQS_GRANTED: it has a permit
 *     a = cqs_semaphore_release(s, 0);
 *     while (a.answer == CQS_UNDER) a = cqs_semaphore_finish(s, 0);
 *     cqs_semaphore_drop(s);
 *
 * Threads. All calls but `drop` may be made by any thread at any time, with the same primitive. Two
 * calls with the same pass at once don't both go: one is answered CQS_IN_USE, and did nothing.
 * `drop` is the last call: none runs with it or comes after it. A call may not be made by a signal
 * handler, nor after a fork in the child of a process with threads.
 *
 * What is tested: a null pointer, and every number. A wait that is given with another pass of its
 * primitive is answered CQS_NO_WAIT, and so is one that is over. What can't be tested: a pointer that
 * `new` didn't give or `drop` took; an `out` that isn't room for a pointer; and a number that belongs
 * to another primitive, where this one has one like it: then that one is meant.
 *
 * Memory. `new` and `split` allocate, by malloc; no other call does. Each pass has room for `waits`
 * waits, and a call that would wait is refused as CQS_FULL where they are used up. That room takes 8
 * bytes a wait; and `new` makes slots for the waits of all passes, which are used again: 12 bytes a
 * wait, and 384 bytes for each of `2 * passes + 2` more, whatever the limit.
 *
 * Proved of the library behind this header: its three exports are safe and end, where the pointer
 * is good; at null `cqs_call` answers so, and else what the call by number answered; and each call
 * by number, `split` and `meet` too, is refused for its cause, or is the primitive's own, with what
 * the primitive answered (crates/cqs_c, crates/cqs_c_numbers, crates/cqs_semaphore,
 * crates/cqs_sync_semaphore, crates/cqs_pool, crates/cqs_latch, crates/cqs_barrier). What `new` has
 * made, what two calls have to do with one another, and so the cause of CQS_NO_PASS and CQS_IN_USE,
 * is tested. This file, and that it fits the exports, is written by hand and tested. */
#ifndef CQS_H
#define CQS_H
#include <stddef.h>
#include <stdint.h>
#include <stdlib.h>
#ifdef __cplusplus
extern "C" {
#endif

/* What a call answers, and the number that the answer carries, or -1. */
struct cqs_answer {
    uint32_t answer;
    int64_t number;
};

enum {
    CQS_NEW = 0,            /* new: it is there */
    /* Refused; nothing has changed. */
    CQS_NULL = 1,           /* the pointer is null */
    CQS_NO_PASS = 2,        /* no pass has this number */
    CQS_IN_USE = 3,         /* another call has this pass (meet: or the given one) */
    CQS_OWES = 4,           /* the pass owes a resumption: finish first */
    CQS_OWES_NOTHING = 5,   /* finish: the pass owes nothing */
    CQS_NO_PERMIT = 6,      /* release, unlock: the pass holds none, or hasn't the mutex */
    CQS_NO_WAIT = 7,        /* poll, cancel: the pass has no wait of this number */
    CQS_FULL = 8,           /* the pass has as many waits as there is room for */
    CQS_WORN = 9,           /* as many waits were drawn as `limit` allows */
    CQS_CROWD = 10,         /* split: as many passes were made as `passes` allows */
    CQS_MEMORY = 11,        /* new, split: malloc had no memory */
    CQS_BUSY = 12,          /* meet: the given pass waits, owes something, or has elements */
    CQS_BAD_CONFIG = 13,    /* new: a number is out of range */
    CQS_NO_CALL = 14,       /* the primitive has no such call */
    CQS_NO_ELEMENT = 15,    /* put: the pass hasn't this element */
    /* Done. */
    CQS_NOW = 16,           /* acquire, lock: the pass has a permit; number: the wait by which it
                               came, or -1 */
    CQS_LATER = 17,         /* acquire, lock: it waits in line; number: its wait */
    CQS_GOT = 18,           /* try: the pass has a permit */
    CQS_NONE_FREE = 19,     /* try: no permit was free */
    CQS_CONTENDED = 20,     /* another caller was first; try: number: the state that was found;
                               cancel of a barrier: number: the parties still to arrive that were
                               found, and the wait is still to be left: finish */
    CQS_GRANTED = 21,       /* poll: the permit has come, and the wait is over */
    CQS_PENDING = 22,       /* poll: the wait goes on */
    CQS_CANCELLED = 23,     /* cancel: the wait is over, and nothing came of it */
    CQS_CANCELLED_OWING = 24, /* the same, and what was on its way to it is still to be passed on:
                               finish */
    CQS_TOO_LATE = 25,      /* cancel: what it waited for had come before: the pass has the permit,
                               or the element of this number, or is through */
    CQS_FREED = 26,         /* release: the permit is free */
    CQS_SENT = 27,          /* release, finish: it went to the wait of this number */
    CQS_LEFT = 28,          /* it was left for the wait of this number, which is about to begin or
                               to end */
    CQS_VOID = 29,          /* the wait of this number had left, and the permit is free */
    CQS_UNDER = 30,         /* 64 numbers were passed over, or there is no slot for the next one,
                               and the rest is owed: finish */
    CQS_STATE = 31,         /* state: the free permits, less those who wait with none on its way */
    CQS_SOLE = 32,          /* sole: 1 where no other pass is there, else 0 */
    CQS_MADE = 33,          /* split: the number of the new pass */
    CQS_MET = 34,           /* meet: the given pass is taken in, and its number is nobody's */
    CQS_TOOK = 35,          /* take, poll: the pass has the element of this number */
    CQS_PASSED = 36,        /* wait: the latch's count was used up */
    CQS_THROUGH = 37,       /* poll: the latch was opened, or all parties have arrived, and the wait
                               is over */
    CQS_COUNTED = 38,       /* count_down: so many counts are left */
    CQS_LAST = 39,          /* count_down: the latch is open; arrive: all parties have arrived; each
                               who waited was resumed */
    CQS_LAST_OWING = 40,    /* the same, and some are still to be resumed: finish */
    CQS_ALREADY = 41,       /* count_down: the count was used up before */
    CQS_FINISHED = 42,      /* finish: all that was owed is done */
    /* Refused; nothing has changed. The export says CQS_NO_PERMIT. */
    CQS_NO_PARTY = 43,      /* arrive: the pass holds no party; split of a barrier: or fewer than
                               it is to give */
    /* Refused; the pass has what it had, with what it was to give. A later try may succeed. */
    CQS_CROWDED = 44,       /* a call that may wait, or that gives back: there is no slot for the
                               cells of more waits by now. See below, at `new` */
    /* Done, of a synchronous semaphore. */
    CQS_BROKE = 45,         /* acquire: a permit was held out under this number, and taken back
                               before the caller came: the pass has none, and doesn't wait;
                               release, finish: the caller of this number didn't come while it was
                               looked for, and the pass has the permit again */
    CQS_HANDLING = 46       /* release, finish: the caller of this wait is about to leave, and the
                               rest is owed: finish, once it has left */
};

/* The name of an answer, in small letters: "now" of CQS_NOW. */
static inline const char *cqs_answer_name(uint32_t answer) {
    static const char *const names[] = {
        "new", "null", "no pass", "in use", "owes", "owes nothing", "no permit", "no wait",
        "full", "worn", "crowd", "memory", "busy", "bad config", "no call", "no element", "now",
        "later", "got", "none free", "contended", "granted", "pending", "cancelled",
        "cancelled owing", "too late", "freed", "sent", "left", "void", "under", "state", "sole",
        "made", "met", "took", "passed", "through", "counted", "last", "last owing", "already",
        "finished", "no party", "crowded", "broke", "handling"
    };
    return answer < sizeof names / sizeof names[0] ? names[answer] : "no answer";
}

/* The exports, by which the functions below are written. `size` is how many permits a semaphore
 * has, how many elements a pool, how often a latch is to be counted down, or how many parties a
 * barrier has; `looks`, which the synchronous semaphore alone reads, is how often its release looks
 * at a permit that it holds out; `number` is that of a wait, of an element, or of the given pass of a
 * meet, or how many parties a split gives. `out` is written to where the answer is CQS_NEW. */
enum {
    CQS_KIND_SEMAPHORE = 0,
    CQS_KIND_POOL = 1,
    CQS_KIND_LATCH = 2,
    CQS_KIND_SIMPLE_LATCH = 3,
    CQS_KIND_BARRIER = 4,
    CQS_KIND_SYNC_SEMAPHORE = 5
};
enum {
    CQS_DO_ENTER = 0,
    CQS_DO_TRY = 1,
    CQS_DO_POLL = 2,
    CQS_DO_CANCEL = 3,
    CQS_DO_LEAVE = 4,
    CQS_DO_FINISH = 5,
    CQS_DO_STATE = 6,
    CQS_DO_SOLE = 7,
    CQS_DO_SPLIT = 8,
    CQS_DO_MEET = 9
};
uint32_t cqs_new(uint32_t kind, uint32_t size, uint32_t passes, uint64_t limit, uint32_t waits,
                 uint32_t looks, void **out);
struct cqs_answer cqs_call(const void *at, uint32_t what, uint32_t pass, uint64_t number);
/* Drops all that it holds, and leaves its block to be freed. Null is left alone. */
void cqs_end(void *at);
/* Frees it. What its passes held is gone with it. Null is left alone. */
static inline void cqs_drop(void *at) {
    cqs_end(at);
    free(at);
}

/* In each `new`: passes, that may be made in all, 1 to 32; limit, how many waits may be drawn in
 * all, 1 to 68719476736, of a latch to 4294967232, which costs nothing; waits, how many one pass may
 * have at once, up to 1048576. The first pass is there, under the number 0.
 *
 * Slots. The cells of waits stand 32 to a slot, in the order of their numbers, and a slot comes free
 * when all 32 waits in it have ended. `new` makes `waits * passes / 32 + 2 * passes + 2` slots, of a
 * pool `size / 32 + 1` more, of a barrier `parties` more, but 65535 at most. With fewer than that all
 * passes may have all their waits at once, where these were drawn one after the other. A wait that
 * goes on and on keeps a whole slot, also where the other 31 have ended. So where many wait, far from
 * one another, with many in between that were given up, a call may find no slot, and is refused as
 * CQS_CROWDED. Nothing is lost: the pass has what it had, the permit, the mutex, the element or the
 * party that it was to give too. Try again after some of the waits have ended. Who wants to be
 * refused less often makes more room, by `waits`. */

/* ---- The semaphore ----
 *
 *     acquire   CQS_NOW, or CQS_LATER with a wait; CQS_WORN or CQS_CROWDED even if
 *               a permit is free
 *     try       CQS_GOT, CQS_NONE_FREE, or CQS_CONTENDED
 *     poll      CQS_GRANTED, or CQS_PENDING
 *     cancel    CQS_CANCELLED, CQS_CANCELLED_OWING, or CQS_TOO_LATE: the pass has the permit
 *     release   CQS_FREED, CQS_SENT, CQS_LEFT, CQS_VOID, or CQS_UNDER; CQS_CROWDED
 *     finish    as release, but CQS_FREED
 *     state     CQS_STATE
 *     sole      CQS_SOLE
 *     split     CQS_MADE
 *     meet      CQS_MET: the pass takes in the given one, with the permits that it holds
 */
struct cqs_semaphore;

/* permits: 1 to 1048576 */
static inline uint32_t cqs_semaphore_new(uint32_t permits, uint32_t passes, uint64_t limit,
                                         uint32_t waits, struct cqs_semaphore **out) {
    void *made = NULL;
    uint32_t answer = cqs_new(CQS_KIND_SEMAPHORE, permits, passes, limit, waits, 0, &made);
    if (answer == CQS_NEW) *out = (struct cqs_semaphore *)made;
    return answer;
}
static inline void cqs_semaphore_drop(struct cqs_semaphore *s) { cqs_drop(s); }

static inline struct cqs_answer cqs_semaphore_acquire(const struct cqs_semaphore *s,
                                                      uint32_t pass) {
    return cqs_call(s, CQS_DO_ENTER, pass, 0);
}
static inline struct cqs_answer cqs_semaphore_try(const struct cqs_semaphore *s, uint32_t pass) {
    return cqs_call(s, CQS_DO_TRY, pass, 0);
}
static inline struct cqs_answer cqs_semaphore_poll(const struct cqs_semaphore *s, uint32_t pass,
                                                   uint64_t wait) {
    return cqs_call(s, CQS_DO_POLL, pass, wait);
}
static inline struct cqs_answer cqs_semaphore_cancel(const struct cqs_semaphore *s, uint32_t pass,
                                                     uint64_t wait) {
    return cqs_call(s, CQS_DO_CANCEL, pass, wait);
}
static inline struct cqs_answer cqs_semaphore_release(const struct cqs_semaphore *s,
                                                      uint32_t pass) {
    return cqs_call(s, CQS_DO_LEAVE, pass, 0);
}
static inline struct cqs_answer cqs_semaphore_finish(const struct cqs_semaphore *s, uint32_t pass) {
    return cqs_call(s, CQS_DO_FINISH, pass, 0);
}
static inline struct cqs_answer cqs_semaphore_state(const struct cqs_semaphore *s, uint32_t pass) {
    return cqs_call(s, CQS_DO_STATE, pass, 0);
}
static inline struct cqs_answer cqs_semaphore_sole(const struct cqs_semaphore *s, uint32_t pass) {
    return cqs_call(s, CQS_DO_SOLE, pass, 0);
}
static inline struct cqs_answer cqs_semaphore_split(const struct cqs_semaphore *s, uint32_t pass) {
    return cqs_call(s, CQS_DO_SPLIT, pass, 0);
}
static inline struct cqs_answer cqs_semaphore_meet(const struct cqs_semaphore *s, uint32_t pass,
                                                   uint32_t given) {
    return cqs_call(s, CQS_DO_MEET, pass, given);
}

/* ---- The synchronous semaphore ----
 *
 * A semaphore that leaves no permit to a caller unseen. Where a release finds that its caller hasn't
 * come yet, it holds the permit out for so many looks as the semaphore was made with, and sees it
 * taken, or takes it back. Then the pass has it again, and may give it to the next one; and that
 * caller finds it gone, and may acquire again, under a new number.
 *
 *     a = cqs_sync_semaphore_release(s, pass);
 *     for (;; sched_yield()) {
 *         if (a.answer == CQS_BROKE)
 *             a = cqs_sync_semaphore_release(s, pass);     // or it is kept
 *         else if (a.answer == CQS_HANDLING || a.answer == CQS_UNDER)
 *             a = cqs_sync_semaphore_finish(s, pass);
 *         else
 *             break;                                       // it is gone; or CQS_CROWDED
 *     }
 *
 * With 0 looks it is taken back at once, unless its caller comes in between. A caller that has drawn
 * its number comes in a few steps, so some tens of looks meet nearly all. None of its calls is in
 * cqs_wait.h: what becomes of a release, who releases has to see.
 *
 *     acquire   CQS_NOW, or CQS_LATER with a wait; CQS_BROKE: acquire again; CQS_WORN
 *               or CQS_CROWDED even if a permit is free
 *     try       CQS_GOT, CQS_NONE_FREE, or CQS_CONTENDED
 *     poll      CQS_GRANTED, or CQS_PENDING
 *     cancel    CQS_CANCELLED, or CQS_TOO_LATE: the pass has the permit
 *     release   CQS_FREED, CQS_SENT, or CQS_VOID; CQS_BROKE: the pass has it again;
 *               CQS_HANDLING or CQS_UNDER: finish; CQS_CROWDED
 *     finish    as release, but CQS_FREED and CQS_CROWDED
 *     state     CQS_STATE
 *     sole      CQS_SOLE
 *     split     CQS_MADE
 *     meet      CQS_MET: the pass takes in the given one, with the permits that it holds
 */
struct cqs_sync_semaphore;

/* permits: 1 to 1048576; looks: up to 1024 */
static inline uint32_t cqs_sync_semaphore_new(uint32_t permits, uint32_t looks, uint32_t passes,
                                              uint64_t limit, uint32_t waits,
                                              struct cqs_sync_semaphore **out) {
    void *made = NULL;
    uint32_t answer =
        cqs_new(CQS_KIND_SYNC_SEMAPHORE, permits, passes, limit, waits, looks, &made);
    if (answer == CQS_NEW) *out = (struct cqs_sync_semaphore *)made;
    return answer;
}
static inline void cqs_sync_semaphore_drop(struct cqs_sync_semaphore *s) { cqs_drop(s); }

static inline struct cqs_answer cqs_sync_semaphore_acquire(const struct cqs_sync_semaphore *s,
                                                           uint32_t pass) {
    return cqs_call(s, CQS_DO_ENTER, pass, 0);
}
static inline struct cqs_answer cqs_sync_semaphore_try(const struct cqs_sync_semaphore *s,
                                                       uint32_t pass) {
    return cqs_call(s, CQS_DO_TRY, pass, 0);
}
static inline struct cqs_answer cqs_sync_semaphore_poll(const struct cqs_sync_semaphore *s,
                                                        uint32_t pass, uint64_t wait) {
    return cqs_call(s, CQS_DO_POLL, pass, wait);
}
static inline struct cqs_answer cqs_sync_semaphore_cancel(const struct cqs_sync_semaphore *s,
                                                          uint32_t pass, uint64_t wait) {
    return cqs_call(s, CQS_DO_CANCEL, pass, wait);
}
static inline struct cqs_answer cqs_sync_semaphore_release(const struct cqs_sync_semaphore *s,
                                                           uint32_t pass) {
    return cqs_call(s, CQS_DO_LEAVE, pass, 0);
}
static inline struct cqs_answer cqs_sync_semaphore_finish(const struct cqs_sync_semaphore *s,
                                                          uint32_t pass) {
    return cqs_call(s, CQS_DO_FINISH, pass, 0);
}
static inline struct cqs_answer cqs_sync_semaphore_state(const struct cqs_sync_semaphore *s,
                                                         uint32_t pass) {
    return cqs_call(s, CQS_DO_STATE, pass, 0);
}
static inline struct cqs_answer cqs_sync_semaphore_sole(const struct cqs_sync_semaphore *s,
                                                        uint32_t pass) {
    return cqs_call(s, CQS_DO_SOLE, pass, 0);
}
static inline struct cqs_answer cqs_sync_semaphore_split(const struct cqs_sync_semaphore *s,
                                                         uint32_t pass) {
    return cqs_call(s, CQS_DO_SPLIT, pass, 0);
}
static inline struct cqs_answer cqs_sync_semaphore_meet(const struct cqs_sync_semaphore *s,
                                                        uint32_t pass, uint32_t given) {
    return cqs_call(s, CQS_DO_MEET, pass, given);
}

/* ---- The mutex ----
 *
 * A semaphore of one permit. What it guards is the caller's own memory: what a thread has written
 * before its unlock, the next one that has the mutex sees. (The steps of the library are
 * sequentially consistent. This is tested, and no clause says it.)
 *
 *     lock      CQS_NOW, or CQS_LATER with a wait; CQS_WORN or CQS_CROWDED even if
 *               it is free
 *     try       CQS_GOT, CQS_NONE_FREE, or CQS_CONTENDED
 *     poll      CQS_GRANTED, or CQS_PENDING
 *     cancel    CQS_CANCELLED, CQS_CANCELLED_OWING, or CQS_TOO_LATE: the pass has the mutex
 *     unlock    CQS_FREED, CQS_SENT, CQS_LEFT, CQS_VOID, or CQS_UNDER; CQS_CROWDED; CQS_NO_PERMIT
 *     finish    as unlock, but CQS_FREED
 *     state     CQS_STATE: 1 where it is free, and else less those who wait with it not on its way
 *     sole      CQS_SOLE
 *     split     CQS_MADE
 *     meet      CQS_MET: the pass takes in the given one, with the mutex if that has it
 */
struct cqs_mutex;

static inline uint32_t cqs_mutex_new(uint32_t passes, uint64_t limit, uint32_t waits,
                                     struct cqs_mutex **out) {
    void *made = NULL;
    uint32_t answer = cqs_new(CQS_KIND_SEMAPHORE, 1, passes, limit, waits, 0, &made);
    if (answer == CQS_NEW) *out = (struct cqs_mutex *)made;
    return answer;
}
static inline void cqs_mutex_drop(struct cqs_mutex *m) { cqs_drop(m); }

static inline struct cqs_answer cqs_mutex_lock(const struct cqs_mutex *m, uint32_t pass) {
    return cqs_call(m, CQS_DO_ENTER, pass, 0);
}
static inline struct cqs_answer cqs_mutex_try(const struct cqs_mutex *m, uint32_t pass) {
    return cqs_call(m, CQS_DO_TRY, pass, 0);
}
static inline struct cqs_answer cqs_mutex_poll(const struct cqs_mutex *m, uint32_t pass,
                                               uint64_t wait) {
    return cqs_call(m, CQS_DO_POLL, pass, wait);
}
static inline struct cqs_answer cqs_mutex_cancel(const struct cqs_mutex *m, uint32_t pass,
                                                 uint64_t wait) {
    return cqs_call(m, CQS_DO_CANCEL, pass, wait);
}
static inline struct cqs_answer cqs_mutex_unlock(const struct cqs_mutex *m, uint32_t pass) {
    return cqs_call(m, CQS_DO_LEAVE, pass, 0);
}
static inline struct cqs_answer cqs_mutex_finish(const struct cqs_mutex *m, uint32_t pass) {
    return cqs_call(m, CQS_DO_FINISH, pass, 0);
}
static inline struct cqs_answer cqs_mutex_state(const struct cqs_mutex *m, uint32_t pass) {
    return cqs_call(m, CQS_DO_STATE, pass, 0);
}
static inline struct cqs_answer cqs_mutex_sole(const struct cqs_mutex *m, uint32_t pass) {
    return cqs_call(m, CQS_DO_SOLE, pass, 0);
}
static inline struct cqs_answer cqs_mutex_split(const struct cqs_mutex *m, uint32_t pass) {
    return cqs_call(m, CQS_DO_SPLIT, pass, 0);
}
static inline struct cqs_answer cqs_mutex_meet(const struct cqs_mutex *m, uint32_t pass,
                                               uint32_t given) {
    return cqs_call(m, CQS_DO_MEET, pass, given);
}

/* ---- The pool ----
 *
 * It has elements 0, 1, 2 and so on. A pass that takes one has it until it puts it back, and nobody
 * else has it: so it may use what its user keeps under that number, a connection, say.
 *
 *     take      CQS_TOOK, or CQS_LATER with a wait; CQS_WORN or CQS_CROWDED even if
 *               an element is free
 *     poll      CQS_TOOK, or CQS_PENDING
 *     cancel    CQS_CANCELLED, CQS_CANCELLED_OWING, or CQS_TOO_LATE: the pass has an element
 *     put       CQS_SENT, CQS_LEFT, or CQS_UNDER; CQS_CROWDED; CQS_NO_ELEMENT
 *     finish    as put
 *     sole      CQS_SOLE
 *     split     CQS_MADE
 *     meet      CQS_MET; CQS_BUSY, too, where the given pass has elements
 */
struct cqs_pool;

/* size: the elements, 1 to 4096 */
static inline uint32_t cqs_pool_new(uint32_t size, uint32_t passes, uint64_t limit, uint32_t waits,
                                    struct cqs_pool **out) {
    void *made = NULL;
    uint32_t answer = cqs_new(CQS_KIND_POOL, size, passes, limit, waits, 0, &made);
    if (answer == CQS_NEW) *out = (struct cqs_pool *)made;
    return answer;
}
static inline void cqs_pool_drop(struct cqs_pool *p) { cqs_drop(p); }

static inline struct cqs_answer cqs_pool_take(const struct cqs_pool *p, uint32_t pass) {
    return cqs_call(p, CQS_DO_ENTER, pass, 0);
}
static inline struct cqs_answer cqs_pool_poll(const struct cqs_pool *p, uint32_t pass,
                                              uint64_t wait) {
    return cqs_call(p, CQS_DO_POLL, pass, wait);
}
static inline struct cqs_answer cqs_pool_cancel(const struct cqs_pool *p, uint32_t pass,
                                                uint64_t wait) {
    return cqs_call(p, CQS_DO_CANCEL, pass, wait);
}
static inline struct cqs_answer cqs_pool_put(const struct cqs_pool *p, uint32_t pass,
                                             uint32_t element) {
    return cqs_call(p, CQS_DO_LEAVE, pass, element);
}
static inline struct cqs_answer cqs_pool_finish(const struct cqs_pool *p, uint32_t pass) {
    return cqs_call(p, CQS_DO_FINISH, pass, 0);
}
static inline struct cqs_answer cqs_pool_sole(const struct cqs_pool *p, uint32_t pass) {
    return cqs_call(p, CQS_DO_SOLE, pass, 0);
}
static inline struct cqs_answer cqs_pool_split(const struct cqs_pool *p, uint32_t pass) {
    return cqs_call(p, CQS_DO_SPLIT, pass, 0);
}
static inline struct cqs_answer cqs_pool_meet(const struct cqs_pool *p, uint32_t pass,
                                              uint32_t given) {
    return cqs_call(p, CQS_DO_MEET, pass, given);
}

/* ---- The latch ----
 *
 * It opens once it was counted down as often as it was made for, and then all who wait pass. One is
 * made in the smart mode, where a wait that is given up is counted out, and nobody resumes for it;
 * or in the simple mode, where its number stays behind, and the resumption that comes for it ends
 * there.
 *
 *     wait        CQS_PASSED, or CQS_LATER with a wait; CQS_WORN, or CQS_CROWDED
 *     poll        CQS_THROUGH, or CQS_PENDING
 *     cancel      CQS_CANCELLED, CQS_CANCELLED_OWING, or CQS_TOO_LATE: the latch was opened before
 *     count_down  CQS_COUNTED, CQS_LAST, CQS_LAST_OWING, or CQS_ALREADY; CQS_CROWDED
 *     finish      CQS_FINISHED, or CQS_UNDER
 *     sole        CQS_SOLE
 *     split       CQS_MADE
 *     meet        CQS_MET
 */
struct cqs_latch;

static inline uint32_t cqs_latch_of_kind(uint32_t kind, uint32_t count, uint32_t passes,
                                         uint64_t limit, uint32_t waits, struct cqs_latch **out) {
    void *made = NULL;
    uint32_t answer = cqs_new(kind, count, passes, limit, waits, 0, &made);
    if (answer == CQS_NEW) *out = (struct cqs_latch *)made;
    return answer;
}
/* count: up to 1048576; one of 0 is open */
static inline uint32_t cqs_latch_new(uint32_t count, uint32_t passes, uint64_t limit,
                                     uint32_t waits, struct cqs_latch **out) {
    return cqs_latch_of_kind(CQS_KIND_LATCH, count, passes, limit, waits, out);
}
/* the same, in the simple mode */
static inline uint32_t cqs_latch_new_simple(uint32_t count, uint32_t passes, uint64_t limit,
                                            uint32_t waits, struct cqs_latch **out) {
    return cqs_latch_of_kind(CQS_KIND_SIMPLE_LATCH, count, passes, limit, waits, out);
}
static inline void cqs_latch_drop(struct cqs_latch *l) { cqs_drop(l); }

static inline struct cqs_answer cqs_latch_wait(const struct cqs_latch *l, uint32_t pass) {
    return cqs_call(l, CQS_DO_ENTER, pass, 0);
}
static inline struct cqs_answer cqs_latch_poll(const struct cqs_latch *l, uint32_t pass,
                                               uint64_t wait) {
    return cqs_call(l, CQS_DO_POLL, pass, wait);
}
static inline struct cqs_answer cqs_latch_cancel(const struct cqs_latch *l, uint32_t pass,
                                                 uint64_t wait) {
    return cqs_call(l, CQS_DO_CANCEL, pass, wait);
}
static inline struct cqs_answer cqs_latch_count_down(const struct cqs_latch *l, uint32_t pass) {
    return cqs_call(l, CQS_DO_LEAVE, pass, 0);
}
static inline struct cqs_answer cqs_latch_finish(const struct cqs_latch *l, uint32_t pass) {
    return cqs_call(l, CQS_DO_FINISH, pass, 0);
}
static inline struct cqs_answer cqs_latch_sole(const struct cqs_latch *l, uint32_t pass) {
    return cqs_call(l, CQS_DO_SOLE, pass, 0);
}
static inline struct cqs_answer cqs_latch_split(const struct cqs_latch *l, uint32_t pass) {
    return cqs_call(l, CQS_DO_SPLIT, pass, 0);
}
static inline struct cqs_answer cqs_latch_meet(const struct cqs_latch *l, uint32_t pass,
                                               uint32_t given) {
    return cqs_call(l, CQS_DO_MEET, pass, given);
}

/* ---- The barrier ----
 *
 * Parties that arrive wait until all have arrived, once. The first pass holds all parties; a split
 * gives some of them to the new pass, an arrival takes one from its pass, and a party that stops
 * waiting before the last has come is its pass's again.
 *
 *     arrive    CQS_LAST: all have arrived; CQS_LAST_OWING, or CQS_LATER with a wait; CQS_WORN;
 *               CQS_CROWDED; CQS_NO_PARTY
 *     poll      CQS_THROUGH, or CQS_PENDING
 *     cancel    CQS_CANCELLED: the party is to arrive again; CQS_TOO_LATE: all have arrived; or
 *               CQS_CONTENDED
 *     finish    after CQS_LAST_OWING: CQS_FINISHED, or CQS_UNDER;
 *               after CQS_CONTENDED: as cancel
 *     sole      CQS_SOLE
 *     split     CQS_MADE; CQS_NO_PARTY where the pass holds fewer
 *     meet      CQS_MET: the pass takes in the given one, with the parties that it holds
 */
struct cqs_barrier;

/* parties: 1 to 32 */
static inline uint32_t cqs_barrier_new(uint32_t parties, uint32_t passes, uint64_t limit,
                                       uint32_t waits, struct cqs_barrier **out) {
    void *made = NULL;
    uint32_t answer = cqs_new(CQS_KIND_BARRIER, parties, passes, limit, waits, 0, &made);
    if (answer == CQS_NEW) *out = (struct cqs_barrier *)made;
    return answer;
}
static inline void cqs_barrier_drop(struct cqs_barrier *b) { cqs_drop(b); }

/* Of a barrier the export says CQS_NO_PERMIT where there is no party. */
static inline struct cqs_answer cqs_of_parties(struct cqs_answer a) {
    if (a.answer == CQS_NO_PERMIT) a.answer = CQS_NO_PARTY;
    return a;
}
static inline struct cqs_answer cqs_barrier_arrive(const struct cqs_barrier *b, uint32_t pass) {
    return cqs_of_parties(cqs_call(b, CQS_DO_ENTER, pass, 0));
}
static inline struct cqs_answer cqs_barrier_poll(const struct cqs_barrier *b, uint32_t pass,
                                                 uint64_t wait) {
    return cqs_call(b, CQS_DO_POLL, pass, wait);
}
static inline struct cqs_answer cqs_barrier_cancel(const struct cqs_barrier *b, uint32_t pass,
                                                   uint64_t wait) {
    return cqs_call(b, CQS_DO_CANCEL, pass, wait);
}
static inline struct cqs_answer cqs_barrier_finish(const struct cqs_barrier *b, uint32_t pass) {
    return cqs_call(b, CQS_DO_FINISH, pass, 0);
}
static inline struct cqs_answer cqs_barrier_sole(const struct cqs_barrier *b, uint32_t pass) {
    return cqs_call(b, CQS_DO_SOLE, pass, 0);
}
/* parties: how many the new pass gets */
static inline struct cqs_answer cqs_barrier_split(const struct cqs_barrier *b, uint32_t pass,
                                                  uint32_t parties) {
    return cqs_of_parties(cqs_call(b, CQS_DO_SPLIT, pass, parties));
}
static inline struct cqs_answer cqs_barrier_meet(const struct cqs_barrier *b, uint32_t pass,
                                                 uint32_t given) {
    return cqs_call(b, CQS_DO_MEET, pass, given);
}

#ifdef __cplusplus
}
#endif
#endif
