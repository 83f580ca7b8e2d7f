/* Memory that is ordered by a queue alone: what was written before a close is read after the end, after a send that is
 * refused and after a further close; a queue of one is a lock; and a queue of three lends five buffers. The thread
 * sanitizer, which learns of this order from the header, reports no race.
 *
 * It ends with status 0 if each thread read what the order says. */
#include "checks.h"

enum { THREADS = 4, ROUNDS = 500, CAPACITY = 3, BUFFERS = CAPACITY + 2 };

static vahepito_queue *queue;
static pthread_t threads[THREADS];

static void open_for(uint32_t capacity) { queue = opened(capacity, 1); }

static void start(void *(*body)(void *)) {
    for (int k = 0; k < THREADS; k++) threads[k] = started(body, k % 2 ? &threads[k] : NULL);
}

static void join_and_free(void) {
    join_all(threads, THREADS);
    vahepito_destroy(queue, NULL, NULL);
}

/* ---- a close: half of the threads send until it is closed, and half take until the end */

static int summary, is_closed;

static void *reads_summary(void *sends) {
    uint32_t code;
    if (sends) {
        while ((code = vahepito_send(queue, 7, NULL)) == VAHEPITO_ACCEPTED) {}
        check(code == VAHEPITO_CLOSED && summary == 42,
              "what was written before the close is seen after a send that is refused");
        check(vahepito_close(queue, NULL) == VAHEPITO_ALREADY, "it was closed");
    } else {
        while ((code = vahepito_take(queue, 1, NULL, NULL)) == VAHEPITO_GOT) {}
        check(code == VAHEPITO_ENDED && summary == 42, "and after the end");
    }
    return NULL;
}

/* The same with tries, of a queue that is full; and half of them wait. */
static void *is_refused(void *closes) {
    uint32_t code;
    do code = closes ? vahepito_send_now(queue, 7, NULL) : vahepito_send(queue, 7, NULL);
    while (code == VAHEPITO_FULL);
    check(code == VAHEPITO_CLOSED && summary == 42, "and by a try");
    return NULL;
}

static void *closes_too(void *unused) {
    while (__atomic_load_n(&is_closed, __ATOMIC_RELAXED) == 0) sched_yield();
    check(vahepito_close(queue, NULL) == VAHEPITO_ALREADY && summary == 42, "and after a further close");
    return unused;
}

static void closes(void *(*body)(void *), int items) {
    open_for(CAPACITY);
    summary = is_closed = 0;
    for (int k = 0; k < CAPACITY && items == 0; k++)
        check(vahepito_send(queue, 1, NULL) == VAHEPITO_ACCEPTED, "it is full");
    start(body);
    for (int k = 0; k < items; k++) check(vahepito_send(queue, 1, NULL) == VAHEPITO_ACCEPTED, "an item is sent");
    summary = 42;
    check(vahepito_close(queue, NULL) == VAHEPITO_SHUT, "the queue is closed");
    __atomic_store_n(&is_closed, 1, __ATOMIC_RELAXED);
    join_and_free();
}

/* ---- a lock: a send takes it, and a take gives it back */

static uint64_t counter;

static void *counts(void *unused) {
    for (int k = 0; k < ROUNDS; k++) {
        check(vahepito_send(queue, 1, NULL) == VAHEPITO_ACCEPTED, "the lock is taken");
        counter++;
        check(vahepito_take(queue, 1, NULL, NULL) == VAHEPITO_GOT, "and given back");
    }
    return unused;
}

/* ---- buffers: one thread fills them in turn, and one reads each before its next take */

static struct {
    uint64_t numbers[4];
} buffers[BUFFERS];

static void *reads_buffers(void *unused) {
    vahepito_item item;
    for (uint64_t number = 0; vahepito_take(queue, 1, &item, NULL) == VAHEPITO_GOT; number++)
        for (int k = 0; k < 4; k++) check(buffers[item.words[0]].numbers[k] == number, "a buffer is as it was filled");
    return unused;
}

static void lends_buffers(void) {
    open_for(CAPACITY);
    const pthread_t reader = started(reads_buffers, NULL);
    for (uint64_t number = 0; number < ROUNDS; number++) {
        for (int k = 0; k < 4; k++) buffers[number % BUFFERS].numbers[k] = number;
        check(vahepito_send(queue, number % BUFFERS, NULL) == VAHEPITO_ACCEPTED, "a buffer is lent");
    }
    check(vahepito_close(queue, NULL) == VAHEPITO_SHUT, "the queue is closed");
    (void)joined(reader);
    vahepito_destroy(queue, NULL, NULL);
}

int main(void) {
    end_if_still();
    closes(is_refused, 0);
    closes(closes_too, 0);
    open_for(1);
    start(counts);
    join_and_free();
    check(counter == THREADS * ROUNDS, "one thread has the lock");
    lends_buffers();
    closes(reads_summary, 20);
    printf("%d rounds\n", ROUNDS);
    return 0;
}
