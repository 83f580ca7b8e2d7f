/* The calls of a queue in a log, for `ccq judge`: four threads send and four take, through many queues of the row.
 *
 *     row_log LOG CAPACITY [ITEMS]
 *
 * A queue of the row accepts seven items at most, and five sends begin at a place. The last thread that sends closes.
 * ITEMS (1000) is how many items each thread sends. CAPACITY 0 is no bound. */
#ifndef _POSIX_C_SOURCE
#define _POSIX_C_SOURCE 200809L
#endif
#include "checks.h"
#include "vahepito_record.h"

enum { EACH = 4 };

static vahepito_queue *queue;
static vahepito_log calls;
static vahepito_recorder recorders[2 * EACH];
static uint64_t items = 1000;
static uint32_t sending = EACH, running = 2 * EACH;

static void *sends(void *mine) {
    vahepito_recorder *const recorder = mine;
    const uint32_t thread = (uint32_t)(recorder - recorders);
    for (uint64_t number = 1; number <= items;) {
        vahepito_begin_recorded_send(recorder, item_of(thread, number));
        const uint32_t code = thread % 2 == 0 ? vahepito_send(queue, item_of(thread, number), NULL)
                                              : vahepito_send_now(queue, item_of(thread, number), NULL);
        check(code == VAHEPITO_ACCEPTED || (thread % 2 == 1 && code == VAHEPITO_FULL),
              "a send is accepted, or there is no room");
        vahepito_end_recorded_send(recorder, code == VAHEPITO_ACCEPTED ? VAHEPITO_SENT : VAHEPITO_WAS_FULL);
        if (code == VAHEPITO_ACCEPTED) number++;
        else sched_yield();
    }
    if (__atomic_sub_fetch(&sending, 1, __ATOMIC_SEQ_CST) == 0) {
        vahepito_begin_recorded_close(recorder);
        check(vahepito_close(queue, NULL) == VAHEPITO_SHUT, "it is closed once");
        vahepito_end_recorded_close(recorder);
    }
    __atomic_sub_fetch(&running, 1, __ATOMIC_SEQ_CST);
    return NULL;
}

static void *takes(void *mine) {
    vahepito_recorder *const recorder = mine;
    const bool waits = (recorder - recorders) % 2 == 0;
    uint32_t code;
    do {
        vahepito_item item;
        vahepito_begin_recorded_take(recorder);
        code = waits ? vahepito_take(queue, 1, &item, NULL) : vahepito_take_now(queue, 1, &item, NULL);
        check(code == VAHEPITO_GOT || code == VAHEPITO_ENDED || (!waits && code == VAHEPITO_EMPTY),
              "a take gets an item, or there is none");
        vahepito_end_recorded_take(recorder,
                                   code == VAHEPITO_GOT     ? VAHEPITO_TOOK
                                   : code == VAHEPITO_EMPTY ? VAHEPITO_FOUND_NONE
                                                            : VAHEPITO_FOUND_END,
                                   code == VAHEPITO_GOT ? item.words[0] : 0);
        if (code == VAHEPITO_EMPTY) sched_yield();
    } while (code != VAHEPITO_ENDED);
    __atomic_sub_fetch(&running, 1, __ATOMIC_SEQ_CST);
    return NULL;
}

int main(int count, char **words) {
    pthread_t threads[2 * EACH];
    vahepito_attributes attributes = VAHEPITO_ATTRIBUTES;
    if (count < 3 || vahepito_log_open(&calls, words[1]) != 0) {
        fprintf(stderr, "usage: row_log LOG CAPACITY [ITEMS]\n");
        return 1;
    }
    if (count > 3) items = strtoull(words[3], NULL, 10);
    attributes.capacity = (uint32_t)strtoul(words[2], NULL, 10), attributes.life = 7, attributes.per_sender = 5;
    check(vahepito_create_as(&attributes, &queue) == VAHEPITO_DONE, "the queue is opened");
    for (int k = 0; k < 2 * EACH; k++) vahepito_recorder_open(&recorders[k], &calls);
    for (int k = 0; k < 2 * EACH; k++) threads[k] = started(k < EACH ? sends : takes, &recorders[k]);
    while (__atomic_load_n(&running, __ATOMIC_SEQ_CST) > 0) {
        sleep_for(10);
        vahepito_log_round(&calls);
    }
    join_all(threads, 2 * EACH);
    check(vahepito_log_close(&calls) == 0, "the log is whole");
    vahepito_destroy(queue, NULL, NULL);
    printf("%llu items are sent\n", (unsigned long long)(EACH * items));
    return 0;
}
