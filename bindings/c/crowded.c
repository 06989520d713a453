/* Waits stand 32 to a slot, and one who waits on keeps a whole slot. So where nearly all others have
 * left, a call may find none: it is refused, and goes through once somebody has left. */
#include "cqs.h"
#include <stdio.h>

enum { WAITS = 64 };

int main(void) {
    struct cqs_semaphore *s;
    if (cqs_semaphore_new(1, 2, 100000, WAITS, &s) != CQS_NEW) return 1;
    uint32_t has = 0, waits = (uint32_t)cqs_semaphore_split(s, 0).number;
    if (cqs_semaphore_acquire(s, has).answer != CQS_NOW) return 1;

    /* Of 32 who come one after the other, one stays. */
    int64_t stay[WAITS];
    int staying = 0;
    struct cqs_answer a;
    for (int came = 0;; came++) {
        a = cqs_semaphore_acquire(s, waits);
        if (a.answer != CQS_LATER) break;
        if (came % 32 == 0)
            stay[staying++] = a.number;
        else if (cqs_semaphore_cancel(s, waits, (uint64_t)a.number).answer != CQS_CANCELLED)
            return 1;
    }
    printf("%s, with fewer waits than there is room for: %s\n", cqs_answer_name(a.answer),
           staying < WAITS ? "yes" : "no");

    /* One of them leaves, but not the last: its slot comes free once there is one after it. */
    int one = staying / 2;
    a = cqs_semaphore_cancel(s, waits, (uint64_t)stay[one]);
    printf("one who waits leaves: %s\n", cqs_answer_name(a.answer));
    for (staying--; one < staying; one++) stay[one] = stay[one + 1];
    a = cqs_semaphore_acquire(s, waits);
    printf("and another one can come: %s\n", cqs_answer_name(a.answer));
    if (a.answer != CQS_LATER) return 1;
    stay[staying++] = a.number;

    /* The permit goes to all of them, in their order. */
    uint32_t from = has;
    for (int next = 0; next < staying; next++) {
        a = cqs_semaphore_release(s, from);
        while (a.answer == CQS_UNDER) a = cqs_semaphore_finish(s, from);
        if (a.answer != CQS_SENT || a.number != stay[next]) return 1;
        if (cqs_semaphore_poll(s, waits, (uint64_t)stay[next]).answer != CQS_GRANTED) return 1;
        from = waits;
    }
    a = cqs_semaphore_release(s, from);
    printf("all of them were served, and the permit is given back: %s\n",
           cqs_answer_name(a.answer));
    cqs_semaphore_drop(s);
    return 0;
}
