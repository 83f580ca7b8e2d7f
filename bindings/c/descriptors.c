/* Descriptors: what they say on one thread; and threads that sleep in epoll without end miss nothing, of two groups,
 * beside calls that park, and beside a close.
 *
 *     descriptors [ITEMS]
 *
 * First each of two senders sends ITEMS (10000) items, with pauses at random. Half of the threads take levels, and half
 * edges. Then queues are closed at a random moment, while threads of both sides sleep. It ends with status 0 if each
 * call returned what it has to; if a thread misses something it ends by a signal. */
#ifndef _DEFAULT_SOURCE
#define _DEFAULT_SOURCE
#endif
#include "checks.h"

#include <errno.h>
#include <fcntl.h>
#include <poll.h>
#include <sys/epoll.h>

enum { GROUPS = 2, SENDERS = 2, TAKERS = 2 * GROUPS, THREADS = SENDERS + 2 * TAKERS };
enum { PAUSE = 300, MOST_PAUSE = 30000, TRIES = 8 };

static uint64_t items = 10000;
static vahepito_queue *queue;
static pthread_barrier_t round_begins, round_ends;
static bool is_over;
static uint32_t absent; /* the group whose threads make no calls in this round; 0: the senders; GROUPS + 1: none */
static uint64_t got[GROUPS];

/* ---- one thread */

static bool is_readable(int place) {
    struct pollfd it = {place, POLLIN, 0};
    return poll(&it, 1, 0) == 1;
}

/* A descriptor is readable when there is something. */
static void one_thread(void) {
    queue = opened(1, 1);
    const int item = vahepito_descriptor(queue, 1), room = vahepito_descriptor(queue, 0);
    check(item >= 0 && room >= 0 && item != room && vahepito_descriptor(queue, 1) == item, "there are two");
    check(vahepito_descriptor(queue, 2) == -1 && errno == EINVAL, "and no more");
    errno = 77;
    check(vahepito_take_now(queue, 1, NULL, NULL) == VAHEPITO_EMPTY && !is_readable(item),
          "after a take that found nothing it isn't readable");
    check(vahepito_send_now(queue, 1, NULL) == VAHEPITO_ACCEPTED && is_readable(item), "after a send it is");
    check(vahepito_send_now(queue, 2, NULL) == VAHEPITO_FULL && !is_readable(room), "there is no room");
    check(vahepito_take_now(queue, 1, NULL, NULL) == VAHEPITO_GOT && is_readable(room), "and then there is");
    check(vahepito_take_now(queue, 1, NULL, NULL) == VAHEPITO_EMPTY && !is_readable(item), "and no item");
    check(errno == 77, "these calls change no errno");
    check(vahepito_close(queue, NULL) == VAHEPITO_SHUT, "it is closed");
    check(is_readable(item) && is_readable(room), "and then both are readable");
    vahepito_destroy(queue, NULL, NULL);
    check(fcntl(item, F_GETFD) == -1 && fcntl(room, F_GETFD) == -1, "and are closed with the queue");
}

/* ---- threads */

/* A thread: its number, and the group that it takes for, or 0 if it sends. */
struct one {
    uint32_t number, group;
    bool polls;
    uint64_t dice;
};

static void spin(uint32_t times) {
    for (volatile uint32_t k = 0; k < times; k++) continue;
}

static void pause_now_and_then(struct one *it) {
    const uint32_t kind = roll(&it->dice, 8);
    if (kind >= 4) spin(roll(&it->dice, PAUSE) * (kind == 7 ? 8 : 1));
    if (kind == 6) (void)sched_yield();
}

/* An epoll of this thread, of the descriptor of its side. */
static int opened_poll(const struct one *it) {
    const int place = epoll_create1(EPOLL_CLOEXEC), descriptor = vahepito_descriptor(queue, it->group);
    struct epoll_event event = {EPOLLIN | (it->number % 2 ? (uint32_t)EPOLLET : 0), {0}};
    check(place >= 0 && descriptor >= 0, "a descriptor is opened");
    check(epoll_ctl(place, EPOLL_CTL_ADD, descriptor, &event) == 0, "a descriptor is polled");
    return place;
}

/* If the process is stopped and goes on, epoll_wait ends without an event. */
static void sleep_in(int place) {
    struct epoll_event event;
    int count;
    do count = epoll_wait(place, &event, 1, -1);
    while (count == -1 && errno == EINTR);
    check(count == 1, "a descriptor gets readable");
}

/* A call of this thread whose moment is now, or, if it doesn't poll, one that waits. */
static uint32_t one_call(struct one *it) {
    if (it->group == 0) return (it->polls ? vahepito_send_now : vahepito_send)(queue, it->number, NULL);
    return (it->polls ? vahepito_take_now : vahepito_take)(queue, it->group, NULL, NULL);
}

/* Calls until the queue is closed, and has ended for a group, or until it has made the most. It sleeps after some of
 * its calls that find nothing. Returns how many it made. */
static uint64_t call_again_and_again(struct one *it, uint64_t most) {
    const uint32_t made = it->group ? VAHEPITO_GOT : VAHEPITO_ACCEPTED;
    const uint32_t none = it->group ? VAHEPITO_EMPTY : VAHEPITO_FULL;
    const int place = it->polls ? opened_poll(it) : -1;
    uint64_t count = 0;
    while (count < most) {
        const uint32_t code = one_call(it);
        if (code == made) count++, pause_now_and_then(it);
        else if (code != none || !it->polls) break;
        else if (roll(&it->dice, TRIES) == 0) sleep_in(place);
    }
    if (place >= 0) (void)close(place);
    return count;
}

static void *passes_items(void *at) {
    struct one *const it = at;
    const uint64_t count = call_again_and_again(it, it->group ? UINT64_MAX : items);
    if (it->group) (void)__atomic_fetch_add(&got[it->group - 1], count, __ATOMIC_RELAXED);
    else check(count == items, "each item is accepted");
    return NULL;
}

static void *sleeps_beside_closes(void *at) {
    for (;;) {
        (void)pthread_barrier_wait(&round_begins);
        if (is_over) return NULL;
        if (((const struct one *)at)->group != absent) (void)call_again_and_again(at, UINT64_MAX);
        (void)pthread_barrier_wait(&round_ends);
    }
}

/* Both senders, and of each group two threads that poll; and, if these are asked for, two that wait in calls. */
static uint32_t start(pthread_t *threads, struct one *ones, bool with_waits, void *(*body)(void *)) {
    const uint32_t count = with_waits ? THREADS : SENDERS + TAKERS;
    for (uint32_t k = 0; k < count; k++) {
        ones[k] = (struct one){k, k < SENDERS ? 0 : 1 + k % GROUPS, k < SENDERS + TAKERS, k};
        ones[k].number += k >= SENDERS ? k / GROUPS % 2 : 0; /* in each group one takes levels, and one edges */
        threads[k] = started(body, &ones[k]);
    }
    return count;
}

static void pass_items(bool with_waits, uint32_t capacity) {
    pthread_t threads[THREADS];
    struct one ones[THREADS];
    queue = opened(capacity, GROUPS);
    memset(got, 0, sizeof got);
    const uint32_t count = start(threads, ones, with_waits, passes_items);
    join_all(threads, SENDERS);
    check(vahepito_close(queue, NULL) == VAHEPITO_SHUT, "it is closed");
    join_all(threads + SENDERS, count - SENDERS);
    for (uint32_t group = 0; group < GROUPS; group++) check(got[group] == SENDERS * items, "each group got each item");
    vahepito_destroy(queue, NULL, NULL);
}

static void close_beside_sleepers(uint64_t rounds) {
    pthread_t threads[THREADS];
    struct one ones[THREADS];
    uint64_t dice = 7;
    check(!pthread_barrier_init(&round_begins, NULL, SENDERS + TAKERS + 1), "there is a barrier");
    check(!pthread_barrier_init(&round_ends, NULL, SENDERS + TAKERS + 1), "there is a barrier");
    const uint32_t count = start(threads, ones, false, sleeps_beside_closes);
    for (uint64_t number = 0; number < rounds; number++) {
        vahepito_attributes attributes = VAHEPITO_ATTRIBUTES;
        attributes.capacity = 1 + roll(&dice, 3), attributes.groups = GROUPS;
        attributes.places = 8, attributes.life = number % 4 ? 0 : 2;
        absent = number % 2 ? 0 : (uint32_t)(number / 2 % (GROUPS + 2));
        check(vahepito_create_as(&attributes, &queue) == VAHEPITO_DONE, "the queue is opened");
        (void)pthread_barrier_wait(&round_begins);
        spin(roll(&dice, number % 3 ? MOST_PAUSE : 10 * MOST_PAUSE));
        check(vahepito_close(queue, NULL) == VAHEPITO_SHUT, "it is closed");
        (void)pthread_barrier_wait(&round_ends);
        vahepito_destroy(queue, NULL, NULL);
    }
    is_over = true;
    (void)pthread_barrier_wait(&round_begins);
    join_all(threads, count);
}

int main(int count, char **words) {
    if (count > 1) items = strtoull(words[1], NULL, 10);
    end_if_still();
    one_thread();
    pass_items(false, 3);
    pass_items(true, 1);
    close_beside_sleepers(items / 2);
    printf("%d groups, %d senders\n", GROUPS, SENDERS);
    return 0;
}
