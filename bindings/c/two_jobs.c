/* Two jobs, one permit: one has it, one waits for it and gives up, and one waits and gets it. */
#include "cqs.h"
#include <inttypes.h>
#include <stdio.h>

static int64_t say(const char *what, struct cqs_answer a) {
    printf("%s: %s", what, cqs_answer_name(a.answer));
    if (a.number >= 0 || a.answer == CQS_STATE) printf(" %" PRId64, a.number);
    printf("\n");
    return a.number;
}

int main(void) {
    struct cqs_semaphore *s;
    if (cqs_semaphore_new(1, 2, 100, 4, &s) != CQS_NEW) return 1;
    uint32_t one = 0, two = (uint32_t)say("a second pass", cqs_semaphore_split(s, 0));
    say("one acquires", cqs_semaphore_acquire(s, one));
    uint64_t first = (uint64_t)say("two acquires", cqs_semaphore_acquire(s, two));
    say("two looks", cqs_semaphore_poll(s, two, first));
    say("two gives up", cqs_semaphore_cancel(s, two, first));
    uint64_t second = (uint64_t)say("two acquires again", cqs_semaphore_acquire(s, two));
    say("the state", cqs_semaphore_state(s, one));
    say("one gives back", cqs_semaphore_release(s, one));
    say("two looks", cqs_semaphore_poll(s, two, second));
    say("two looks once more", cqs_semaphore_poll(s, two, second));
    say("one gives back again", cqs_semaphore_release(s, one));
    say("two gives back", cqs_semaphore_release(s, two));
    say("one takes two in", cqs_semaphore_meet(s, one, two));
    say("two acquires", cqs_semaphore_acquire(s, two));
    say("one is sole", cqs_semaphore_sole(s, one));
    say("nobody acquires", cqs_semaphore_acquire(0, one));
    cqs_semaphore_drop(s);
    return 0;
}
