/* A semaphore isn't used up by a million waits: two passes hand its permit to and fro, and for each
 * wait that is served another one is given up. */
#include "cqs.h"
#include <inttypes.h>
#include <stdio.h>

enum { ROUNDS = 600000 };

static int is(struct cqs_answer a, uint32_t answer) { return a.answer == answer; }

int main(void) {
    struct cqs_semaphore *s;
    if (cqs_semaphore_new(1, 2, UINT64_C(68719476736), 2, &s) != CQS_NEW) return 1;
    uint32_t has = 0, waits = (uint32_t)cqs_semaphore_split(s, 0).number;
    if (!is(cqs_semaphore_acquire(s, has), CQS_NOW)) return 1;
    int64_t last = -1;
    for (int round = 0; round < ROUNDS; round++) {
        struct cqs_answer given_up = cqs_semaphore_acquire(s, waits);
        if (!is(given_up, CQS_LATER)) return 1;
        struct cqs_answer served = cqs_semaphore_acquire(s, waits);
        if (!is(served, CQS_LATER)) return 1;
        if (!is(cqs_semaphore_cancel(s, waits, (uint64_t)given_up.number), CQS_CANCELLED)) return 1;
        struct cqs_answer sent = cqs_semaphore_release(s, has);
        if (!is(sent, CQS_SENT) || sent.number != served.number) return 1;
        if (!is(cqs_semaphore_poll(s, waits, (uint64_t)served.number), CQS_GRANTED)) return 1;
        last = served.number;
        uint32_t other = has;
        has = waits;
        waits = other;
    }
    printf("waits up to number %" PRId64 " were drawn, and each was served or left\n", last);
    cqs_semaphore_drop(s);
    return 0;
}
