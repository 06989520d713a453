/* Three workers wait for the start, share two tools, and wait for one another at the end. Who waits
 * sleeps. */
#include "cqs_wait.h"
#include <stdio.h>

enum { WORKERS = 3, TOOLS = 2, ROUNDS = 1000 };

static struct cqs_latch *start;
static struct cqs_pool *tools;
static struct cqs_barrier *end;
/* Who sleeps at each of them. */
static struct cqs_sleepers at_start, at_tools, at_end;
static long uses[TOOLS];

/* A worker has a pass of each. */
struct worker {
    uint32_t start, tools, end;
    long saw;
};

static int wait_for_start(uint32_t pass) {
    struct cqs_answer a = cqs_latch_wait_open(start, &at_start, pass);
    return a.answer == CQS_PASSED || a.answer == CQS_THROUGH;
}

static int take(uint32_t pass, uint32_t *tool) {
    struct cqs_answer a = cqs_pool_take_wait(tools, &at_tools, pass);
    *tool = (uint32_t)a.number;
    return a.answer == CQS_TOOK;
}

static int wait_for_others(uint32_t pass) {
    struct cqs_answer a = cqs_barrier_arrive_wait(end, &at_end, pass);
    return a.answer == CQS_LAST || a.answer == CQS_FINISHED || a.answer == CQS_THROUGH;
}

static void *work(void *of) {
    struct worker *worker = of;
    uint32_t tool;
    if (!wait_for_start(worker->start)) return NULL;
    for (int round = 0; round < ROUNDS && take(worker->tools, &tool); round++) {
        uses[tool]++;
        cqs_pool_put_wake(tools, &at_tools, worker->tools, tool);
    }
    if (!wait_for_others(worker->end)) return NULL;
    for (int i = 0; i < TOOLS; i++) worker->saw += uses[i];
    return NULL;
}

int main(void) {
    struct worker workers[WORKERS];
    pthread_t threads[WORKERS];
    if (cqs_latch_new(1, WORKERS + 1, WORKERS, 1, &start) != CQS_NEW) return 1;
    if (cqs_pool_new(TOOLS, WORKERS + 1, WORKERS * ROUNDS, 1, &tools) != CQS_NEW) return 1;
    if (cqs_barrier_new(WORKERS, WORKERS + 1, WORKERS, 1, &end) != CQS_NEW) return 1;
    if (cqs_sleepers_init(&at_start) || cqs_sleepers_init(&at_tools)) return 1;
    if (cqs_sleepers_init(&at_end)) return 1;
    for (int i = 0; i < WORKERS; i++) {
        workers[i].start = (uint32_t)cqs_latch_split(start, 0).number;
        workers[i].tools = (uint32_t)cqs_pool_split(tools, 0).number;
        workers[i].end = (uint32_t)cqs_barrier_split(end, 0, 1).number;
        workers[i].saw = 0;
        if (pthread_create(&threads[i], NULL, work, &workers[i])) return 1;
    }
    cqs_latch_count_down_wake(start, &at_start, 0);
    for (int i = 0; i < WORKERS; i++) {
        pthread_join(threads[i], NULL);
        printf("worker %d saw %ld uses\n", i + 1, workers[i].saw);
    }
    cqs_sleepers_destroy(&at_start);
    cqs_sleepers_destroy(&at_tools);
    cqs_sleepers_destroy(&at_end);
    cqs_latch_drop(start);
    cqs_pool_drop(tools);
    cqs_barrier_drop(end);
    return 0;
}
