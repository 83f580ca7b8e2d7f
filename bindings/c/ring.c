/* Records the calls of four threads on a ring of one's own, as a log to be judged.
 *
 *     cc -O2 -pthread ring.c -o ring && ./ring LOG [right|early|hasty] [ITEMS] [stops]
 *     ccq judge LOG
 *
 * The ring is like that of Dmitry Vyukov: each place has a number that says whose turn it is. `early` plants a fault:
 * now and then a send gives its place to the takes before it has written the item. `hasty` is the ring as he published
 * it: a call that finds another one at work at its place says that there is no item or no room. Each of two threads
 * sends this number of items (5,000), and two take until all is sent and the ring is empty. With `stops` these threads
 * are stopped in the middle of calls. */
#ifndef _GNU_SOURCE
#define _GNU_SOURCE
#endif
#define VAHEPITO_RECORD_STOPS
#include "vahepito_record.h"

#include <inttypes.h>
#include <pthread.h>
#include <stdatomic.h>
#include <stdbool.h>
#include <stdio.h>
#include <string.h>

enum { CAPACITY = 64, THREADS = 4 };

/* A bounded queue of numbers. */
struct place {
    _Atomic uint64_t turn, item;
};
static struct place places[CAPACITY];
static _Atomic uint64_t next_send, next_take;
static bool early, hasty, stops;

/* The place of the next call, whose turn has to be its number and `shift` more; NULL if the other side's number says
 * that there is no room or no item. If it doesn't say so, a call of the other side is at work at the place, and this
 * one waits: NULL would be wrong, as an item whose send has returned may be after that place. The hasty ring gives
 * NULL. */
static struct place *claim(_Atomic uint64_t *next, _Atomic uint64_t *other, uint64_t shift, uint64_t *number) {
    const uint64_t room = shift == 0 ? CAPACITY : 0;
    uint64_t at = atomic_load(next);
    for (;;) {
        struct place *place = &places[at % CAPACITY];
        const uint64_t turn = atomic_load(&place->turn);
        if (turn != at + shift) {
            if (turn < at + shift && (hasty || atomic_load(other) + room == at)) return NULL;
            sched_yield();
            at = atomic_load(next);
        } else if (atomic_compare_exchange_weak(next, &at, at + 1)) {
            *number = at;
            return place;
        }
    }
}

static bool try_send(uint64_t item) {
    const struct timespec window = {0, 200000};
    uint64_t at;
    struct place *place = claim(&next_send, &next_take, 0, &at);
    if (!place) return false;
    if (early && at % 100 == 99) {
        atomic_store(&place->turn, at + 1);
        nanosleep(&window, NULL); /* so that a take comes in between */
        atomic_store(&place->item, item);
    } else {
        atomic_store(&place->item, item);
        atomic_store(&place->turn, at + 1);
    }
    return true;
}

static bool try_take(uint64_t *item) {
    uint64_t at;
    struct place *place = claim(&next_take, &next_send, 1, &at);
    if (!place) return false;
    *item = atomic_load(&place->item);
    atomic_store(&place->turn, at + CAPACITY);
    return true;
}

/* The time until a call that found no room or no item is made again: each such call is a line of the log. */
static const struct timespec short_while = {0, 20000};

static vahepito_log calls;
static vahepito_recorder recorders[THREADS];
static uint64_t items = 5000;
static _Atomic int sending = 2, running = THREADS;

/* Sends the items 2, 4, .. or 3, 5, .. */
static void *sends(void *mine) {
    vahepito_recorder *recorder = mine;
    const uint64_t first = recorder == recorders ? 2 : 3;
    for (uint64_t sent = 0; sent < items;) {
        vahepito_begin_recorded_send(recorder, first + 2 * sent);
        const bool accepted = try_send(first + 2 * sent);
        vahepito_end_recorded_send(recorder, accepted ? VAHEPITO_SENT : VAHEPITO_WAS_FULL);
        if (accepted) sent++;
        else nanosleep(&short_while, NULL);
    }
    atomic_fetch_sub(&sending, 1);
    atomic_fetch_sub(&running, 1);
    return NULL;
}

/* Takes until all is sent, and then until the ring is empty: a lost item shows only if a later take finds none. */
static void *takes(void *mine) {
    vahepito_recorder *recorder = mine;
    for (;;) {
        uint64_t item = 0;
        const bool last = atomic_load(&sending) == 0;
        vahepito_begin_recorded_take(recorder);
        const bool got = try_take(&item);
        vahepito_end_recorded_take(recorder, got ? VAHEPITO_TOOK : VAHEPITO_FOUND_NONE, item);
        if (!got && last) break;
        if (!got) nanosleep(&short_while, NULL);
    }
    atomic_fetch_sub(&running, 1);
    return NULL;
}

int main(int count, char **words) {
    pthread_t threads[THREADS];
    const struct timespec tenth = {0, 100000000};
    if (count < 2 || vahepito_log_open(&calls, words[1]) != 0) {
        fprintf(stderr, "usage: ring LOG [right|early|hasty] [ITEMS] [stops]\n");
        return 1;
    }
    early = count > 2 && strcmp(words[2], "early") == 0;
    hasty = count > 2 && strcmp(words[2], "hasty") == 0;
    stops = count > 4 && strcmp(words[4], "stops") == 0;
    if (stops && vahepito_stops_open() != 0) return 1;
    if (count > 3) items = strtoull(words[3], NULL, 10);
    for (uint64_t at = 0; at < CAPACITY; at++) atomic_store(&places[at].turn, at);
    for (int at = 0; at < THREADS; at++) vahepito_recorder_open(&recorders[at], &calls);
    for (int at = 0; at < THREADS; at++)
        if (pthread_create(&threads[at], NULL, at < 2 ? sends : takes, &recorders[at]) != 0) return 1;
    /* If a thread hangs, the log is there by this. */
    while (atomic_load(&running) > 0) {
        if (stops) vahepito_stop_threads(&calls, 100);
        else nanosleep(&tenth, NULL);
        vahepito_log_round(&calls);
    }
    for (int at = 0; at < THREADS; at++) pthread_join(threads[at], NULL);
    if (vahepito_log_close(&calls) != 0) {
        perror("ring: the log ends early");
        return 1;
    }
    printf("%" PRIu64 " items are sent\n", 2 * items);
    return 0;
}
