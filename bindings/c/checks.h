/* What the programs here share: checks that end them, threads, clocks, and rolled numbers. */
#ifndef CHECKS_H
#define CHECKS_H
#ifndef _POSIX_C_SOURCE
#define _POSIX_C_SOURCE 200809L
#endif

#include "vahepito.h"

#include <pthread.h>
#include <sched.h>
#include <stdio.h>
#include <stdlib.h>
#include <string.h>
#include <sys/resource.h>
#include <time.h>
#include <unistd.h>

static inline void check(int holds, const char *what) {
    if (!holds) {
        fprintf(stderr, "not so: %s\n", what);
        exit(1);
    }
}

/* A thread that runs this; and the result of one, once it has ended. */
static inline pthread_t started(void *(*body)(void *), void *with) {
    pthread_t thread;
    check(pthread_create(&thread, NULL, body, with) == 0, "a thread starts");
    return thread;
}

static inline void *joined(pthread_t thread) {
    void *result;
    check(pthread_join(thread, &result) == 0, "a thread ends");
    return result;
}

static inline void join_all(const pthread_t *threads, size_t count) {
    for (size_t k = 0; k < count; k++) (void)joined(threads[k]);
}

/* The time of a clock, in nanoseconds. */
static inline uint64_t time_of(clockid_t clock) {
    struct timespec time;
    check(clock_gettime(clock, &time) == 0, "there is a clock");
    return (uint64_t)time.tv_sec * 1000000000u + (uint64_t)time.tv_nsec;
}

static inline void sleep_for(uint64_t milliseconds) {
    const struct timespec time = {(time_t)(milliseconds / 1000), (long)(milliseconds % 1000) * 1000000};
    (void)nanosleep(&time, NULL);
}

static inline void *watches(void *unused) {
    for (uint64_t before = 0;;) {
        const uint64_t mine = time_of(CLOCK_THREAD_CPUTIME_ID);
        const uint64_t others = time_of(CLOCK_PROCESS_CPUTIME_ID) - mine;
        if (before && others - before < 100000) abort();
        before = others;
        sleep(120);
    }
    return unused;
}

/* Ends the program by a signal if none of its threads makes progress. After a lost wake-up either all wait, and use
 * less than a tenth of a millisecond of processor time in two minutes, or some poll, and use 600 seconds. On a busy
 * machine a test that goes on takes as long as it takes. */
static inline void end_if_still(void) {
    const struct rlimit limit = {600, 600};
    check(setrlimit(RLIMIT_CPU, &limit) == 0, "the processor time has a limit");
    check(pthread_detach(started(watches, NULL)) == 0, "a thread watches");
}

/* Opens a queue of this capacity for items of one word, with this number of groups. */
static inline vahepito_queue *opened(uint32_t capacity, uint32_t groups) {
    vahepito_attributes attributes = VAHEPITO_ATTRIBUTES;
    vahepito_queue *queue;
    attributes.capacity = capacity;
    attributes.groups = groups;
    check(vahepito_create_as(&attributes, &queue) == VAHEPITO_DONE && queue, "the queue is opened");
    return queue;
}

/* The next of numbers without an order to be seen, below a bound. */
static inline uint32_t roll(uint64_t *dice, uint32_t bound) {
    *dice = *dice * 6364136223846793005u + 1442695040888963407u;
    return (uint32_t)(*dice >> 33) % bound;
}

/* An item of a thread: the number of the thread is in the upper half of the word, and that of the item in the lower
 * half. */
static inline uint64_t item_of(uint32_t thread, uint64_t number) { return (uint64_t)thread << 32 | number; }

#endif
