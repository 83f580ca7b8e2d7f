/* Races that the thread sanitizer has to report though they are beside a queue, as no promise of the header's order
 * covers them.
 *
 *     races queues    written before a send to one queue, and read after the take of an equal item of another one
 *     races items     written before a send, and read after the take of an equal item that was sent before it
 *     races room      a buffer is filled again though its reader has not yet made its next take
 *     races close     written after the close, and read after the end
 *
 * The steps of the three threads have one order by a number, which itself orders no memory. */
#include "checks.h"

static vahepito_queue *first, *second;
int shared; /* not static, or a compiler sees that its value doesn't matter */
static int stage;
static const char *race;

static bool is(const char *name) { return strcmp(race, name) == 0; }

static void await_stage(int number) {
    while (__atomic_load_n(&stage, __ATOMIC_RELAXED) < number) sched_yield();
}

static void next_stage(void) { __atomic_fetch_add(&stage, 1, __ATOMIC_RELAXED); }

static void sends(vahepito_queue *queue) {
    check(vahepito_send(queue, 3, NULL) == VAHEPITO_ACCEPTED, "an item is sent");
}

static uint32_t takes(vahepito_queue *queue) { return vahepito_take_now(queue, 1, NULL, NULL); }

static void closes(vahepito_queue *queue) {
    check(vahepito_close(queue, NULL) == VAHEPITO_SHUT, "the queue is closed");
}

static void *writes(void *unused) {
    if (is("items")) await_stage(1);
    if (is("close")) closes(first);
    if (is("room")) {
        sends(first);
        next_stage();
        await_stage(2); /* its reader has taken the item, reads the buffer, and finds no further item */
        sends(first);
    }
    shared = 42;
    if (is("queues") || is("items")) sends(first);
    next_stage();
    return unused;
}

static void *writes_nothing(void *unused) {
    if (is("items")) {
        sends(first);
        next_stage();
    }
    if (is("queues")) {
        await_stage(1);
        sends(second);
        next_stage();
    }
    return unused;
}

static void *reads(void *unused) {
    int read;
    await_stage(is("queues") || is("items") ? 2 : 1);
    check(takes(is("queues") ? second : first) == (is("close") ? VAHEPITO_ENDED : VAHEPITO_GOT), "a take is answered");
    read = shared;
    if (is("room")) {
        check(takes(first) == VAHEPITO_EMPTY, "there is one item");
        next_stage();
    }
    check(read == 0 || read == 42, "it has some value");
    return unused;
}

int main(int count, char **words) {
    void *(*const bodies[3])(void *) = {writes, writes_nothing, reads};
    pthread_t threads[3];
    race = count > 1 ? words[1] : "";
    first = opened(is("items") ? 4 : 1, 1);
    second = opened(1, 1);
    for (int k = 0; k < 3; k++) threads[k] = started(bodies[k], NULL);
    join_all(threads, 3);
    vahepito_destroy(first, NULL, NULL);
    vahepito_destroy(second, NULL, NULL);
    return 0;
}
