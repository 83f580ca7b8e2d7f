/* What border.c and queues.c share: rounds that threads begin at the same time, on a processor each, and calls by handles. */
#define _GNU_SOURCE
#include "handles.h"
#include <pthread.h>
#include <sched.h>
#include <stdatomic.h>
#include <stdbool.h>
#include <stdio.h>
#include <stdlib.h>

enum { SPINS = 20000 };

static int threads;                         /* how many meet */
static _Alignas(128) atomic_long arrived;   /* how many have come to the barrier, ever */
static _Alignas(128) atomic_bool ends;      /* this round is the last */

/* Waits until all threads have come here, for the time-th time. */
static void meet(long time) {
    atomic_fetch_add(&arrived, 1);
    for (long spins = 0; atomic_load(&arrived) < threads * time; spins++)
        if (spins % SPINS == SPINS - 1) sched_yield();
}

/* Waits for a number of loops below the given number. */
static void wait_below(unsigned loops, unsigned *state) {
    *state = *state * 1103515245u + 12345u;
    for (volatile unsigned left = (*state >> 16) % loops; left > 0; left--) {}
}

static void stay_on(int processor) {
    cpu_set_t set;
    CPU_ZERO(&set);
    CPU_SET((unsigned)processor, &set);
    (void)sched_setaffinity(0, sizeof set, &set);
}

static void sends(vahepito_handle *sender, uint64_t word) {
    uint64_t place;
    uint32_t served, code = vahepito_try_send(sender, word, &place, &served);
    while (code == VAHEPITO_WAITING) code = vahepito_turn_send(sender, &place, &served);
    if (code != VAHEPITO_ACCEPTED) abort();
}

static bool takes(vahepito_handle *receiver) {
    vahepito_word_item item;
    uint64_t total;
    uint32_t served, code = vahepito_try_take(receiver, &item, &total, &served);
    while (code == VAHEPITO_WAITING) code = vahepito_turn_take(receiver, &item, &total, &served);
    return code == VAHEPITO_GOT;
}
