/* The calls that wait, in C: a close while others wait, moments, signals, every refusal, and how calls wait. It ends
 * with status 0 if all calls that waited returned, and each call returned what it has to. If a wake-up is lost it ends
 * by a signal. (rows.c has many threads.) */
#ifndef _POSIX_C_SOURCE
#define _POSIX_C_SOURCE 200809L
#endif
#include <sched.h>

/* How often a thread yielded in its calls. */
static __thread int yields;
static int counted_yield(void) { return yields++, sched_yield(); }
#define sched_yield counted_yield
#include "vahepito_queue.c" /* whose lines it looks into */

#include "checks.h"

#include <signal.h>

enum { EACH = 4 };

static vahepito_queue *queue;

static void open_for_one(void) { queue = opened(1, 1); }

/* No call is in a line, or was notified and isn't, and none is parked or has a seat. How many calls ended beside parked
 * ones is any number. */
static void free_queue(void) {
    check(queue->senders.counts == 0 && queue->served.waiting != PARKED, "no send waits");
    check(queue->receivers[0].counts == 0, "no take waits");
    for (uint32_t k = 0; k < queue->places; k++) check(!queue->seats[k].is_taken, "no call has a seat");
    vahepito_destroy(queue, NULL, NULL);
}

static void *is_told_closed(void *unused) {
    uint64_t place = 99;
    check(vahepito_send(queue, 2, &place) == VAHEPITO_CLOSED && place == 0, "a send that waits is told the close");
    return unused;
}

static void *is_told_ended(void *unused) {
    uint64_t total = 99;
    check(vahepito_take(queue, 1, NULL, &total) == VAHEPITO_ENDED && total == 0, "a take that waits is told the end");
    return unused;
}

/* Long enough for those that wait to be parked. */
static void let_them_sleep(void) { sleep_for(20); }

static void until_a_take_waits(void) {
    while (!has_waiting(&queue->receivers[0])) sleep_for(1);
}

/* Three wait for room, and the fourth closes. */
static void close_over_senders(void) {
    pthread_t sending[EACH - 1];
    vahepito_item item;
    uint64_t total;
    open_for_one();
    check(vahepito_send(queue, 1, NULL) == VAHEPITO_ACCEPTED, "there is room for one");
    for (int k = 0; k < EACH - 1; k++) sending[k] = started(is_told_closed, NULL);
    let_them_sleep();
    check(vahepito_close(queue, &total) == VAHEPITO_SHUT && total == 1, "it is closed while they wait");
    join_all(sending, EACH - 1);
    check(vahepito_take(queue, 1, &item, NULL) == VAHEPITO_GOT && item.words[0] == 1, "what was accepted can be taken");
    check(vahepito_take(queue, 1, &item, &total) == VAHEPITO_ENDED && total == 1, "and then it ends");
    free_queue();
}

/* Four wait for an item, and a sender closes. */
static void close_over_receivers(void) {
    pthread_t taking[EACH];
    open_for_one();
    for (int k = 0; k < EACH; k++) taking[k] = started(is_told_ended, NULL);
    let_them_sleep();
    check(vahepito_close(queue, NULL) == VAHEPITO_SHUT, "it is closed while they wait");
    join_all(taking, EACH);
    free_queue();
}

/* What a call can't be made for: the out-parameters are 0 then, whatever they were. */
static void refusals(void) {
    const uint64_t words[5] = {1, 2, 3, 4, 5};
    const struct timespec moment = vahepito_after((uint64_t)100 << 30);
    vahepito_item item = {9, 9, 9, 9, {9}};
    uint64_t number = 99;
    open_for_one();
    check(vahepito_take(queue, 0, &item, &number) == VAHEPITO_BAD_GROUPS && number == 0, "groups begin with 1");
    check(item.count == 0 && item.words[0] == 0, "and there is no item");
    check(vahepito_take_until(queue, 2, NULL, &moment, NULL) == VAHEPITO_BAD_GROUPS, "this queue has one");
    check(vahepito_take_now(queue, UINT32_MAX, NULL, NULL) == VAHEPITO_BAD_GROUPS, "and no more");
    number = 99;
    check(vahepito_send_words(queue, words, 0, &number) == VAHEPITO_BAD_WORDS && number == 0, "no word is no item");
    check(vahepito_send_words_until(queue, words, 2, &moment, NULL) == VAHEPITO_LONG, "one is all in this queue");
    check(vahepito_send_words_now(queue, words, 2, NULL) == VAHEPITO_LONG, "in each call");
    check(vahepito_send(queue, 5, &number) == VAHEPITO_ACCEPTED && number == 0, "a send is accepted");
    for (int round = 0; round < 2; round++) {
        check(vahepito_send_words(queue, words, 0, &number) == VAHEPITO_BAD_WORDS &&
                  vahepito_send_words(queue, words, 5, NULL) == VAHEPITO_BAD_WORDS,
              "no such item");
        check(vahepito_send_words(queue, words, 2, &number) == VAHEPITO_LONG && number == 0, "waits for room");
        check(vahepito_send_now(queue, 6, &number) == VAHEPITO_FULL && number == 0, "which there isn't");
    }
    check(vahepito_take(queue, 1, &item, NULL) == VAHEPITO_GOT && item.words[0] == 5, "and taken");
    free_queue();
}

static void *sends_second(void *unused) {
    check(vahepito_send(queue, 2, NULL) == VAHEPITO_ACCEPTED, "a send that waits is accepted");
    return unused;
}

/* A send that waits for room begins few sends, however long it waits: at most nine until it has parked and was woken
 * once. The first item was sent at the same place. */
static void tries_are_few(void) {
    vahepito_item item;
    open_for_one();
    check(vahepito_send(queue, 1, NULL) == VAHEPITO_ACCEPTED, "there is room for one");
    const pthread_t sending = started(sends_second, NULL);
    sleep_for(300);
    check(vahepito_take(queue, 1, &item, NULL) == VAHEPITO_GOT && item.words[0] == 1, "the first is taken");
    (void)joined(sending);
    check(vahepito_take(queue, 1, &item, NULL) == VAHEPITO_GOT && item.words[0] == 2, "and the second");
    check(item.number <= 10, "few sends were begun for it");
    free_queue();
}

/* A call that waits uses no processor time. */
static void *takes_one(void *unused) {
    const uint64_t begin = time_of(CLOCK_MONOTONIC), used_before = time_of(CLOCK_THREAD_CPUTIME_ID);
    check(vahepito_take(queue, 1, NULL, NULL) == VAHEPITO_GOT, "a take that waits gets an item");
    const uint64_t used = time_of(CLOCK_THREAD_CPUTIME_ID) - used_before;
    check(used < (time_of(CLOCK_MONOTONIC) - begin) / 2, "it slept");
    return unused;
}

static void waiting_is_parking(void) {
    open_for_one();
    const pthread_t taking = started(takes_one, NULL);
    until_a_take_waits();
    sleep_for(500);
    check(vahepito_send(queue, 1, NULL) == VAHEPITO_ACCEPTED, "there is room");
    (void)joined(taking);
    free_queue();
}

/* A thread gets a longer slice, if the system knows slices; and none if it has no ordinary policy. */
static uint64_t slice_now(void) {
    struct {
        uint32_t size, policy;
        uint64_t flags, nice_and_priority, runtime, deadline, period;
    } of_thread = {.size = sizeof of_thread}; /* valgrind reads the size here too */
    check(syscall(SYS_sched_getattr, 0, &of_thread, sizeof of_thread, 0) == 0, "the system tells the slice");
    return of_thread.runtime;
}

static void *gets_a_longer_slice(void *unused) {
    const struct sched_param none = {0};
    if (vahepito_lengthen_slice() == 0) check(slice_now() == 12000000, "the slice is longer");
    else check(errno == EOPNOTSUPP, "the system doesn't know slices");
    check(sched_setscheduler(0, 5 /* SCHED_IDLE */, &none) == 0, "a thread may be idle");
    check(vahepito_lengthen_slice() == -1 && errno == EINVAL, "then it gets no longer slice");
    return unused;
}

static void longer_slices(void) {
    const uint64_t before = slice_now();
    (void)joined(started(gets_a_longer_slice, NULL));
    check(slice_now() == before, "and the others keep their slices");
}

/* Whether a call in the first seat would park soon, while the thread of the second seat is as many processors from this
 * thread's; or parked. */
static bool parks_beside(uint32_t distance, bool is_parked) {
    call_seat *const seat = &queue->seats[1];
    bool parks;
    do {
        ask_processor();
        check(try_seat(seat), "the seat is free");
        const uint32_t here = seat->processor;
        note_processor(seat, is_parked ? 0 : here + distance);
        parks = is_beside_another(queue, &queue->seats[0]);
        check(!is_beside_another(queue, seat), "a call isn't beside itself");
        note_processor(seat, here);
        give_seat_back(queue, seat);
        if (here == thread_processor) return parks; /* else the thread has moved meanwhile */
    } while (true);
}

static void who_has_a_needed_processor_parks(void) {
    open_for_one();
    check(parks_beside(0, false) == VAHEPITO_PROCESSORS, "a call parks soon beside a thread of its processor");
    check(!parks_beside(1, false), "and not beside one of another processor");
    check(!parks_beside(0, true), "or beside one that is parked");
    check(!is_beside_another(queue, &queue->seats[0]), "or beside a free seat");
    free_queue();
}

static void *takes_two(void *unused) {
    for (int item = 0; item < 2; item++)
        check(vahepito_take(queue, 1, NULL, NULL) == VAHEPITO_GOT, "a take gets an item of a batch");
    return unused;
}

/* The first item of a batch wakes a take that is parked: for that take the batch waits. */
static void batches_wake_at_once(void) {
    const uint64_t words[2] = {1, 2};
    size_t sent = 0;
    open_for_one();
    const pthread_t taking = started(takes_two, NULL);
    until_a_take_waits();
    let_them_sleep();
    check(vahepito_send_many(queue, words, 2, NULL, &sent) == VAHEPITO_ACCEPTED && sent == 2, "a batch is sent");
    (void)joined(taking);
    free_queue();
}

enum { SLOW = 6 };

static void *takes_slow_items(void *told) {
    for (int item = 0; item < SLOW; item++) {
        if (item == 2) yields = 0;
        check(vahepito_take(queue, 1, NULL, NULL) == VAHEPITO_GOT, "a slow item comes");
    }
    check(yields == 0, "after two slow items a take parks at once");
    return told;
}

/* A take yields before it parks, but not if items come slowly. */
static void pace_is_noted(void) {
    side_pace pace = {0, 0, 0, 0, 0};
    open_for_one();
    const pthread_t taking = started(takes_slow_items, NULL);
    for (int item = 0; item < SLOW; item++) {
        until_a_take_waits();
        sleep_for(20);
        check(vahepito_send(queue, 1, NULL) == VAHEPITO_ACCEPTED, "there is room");
    }
    (void)joined(taking);
    check(queue->pace[1].is_slow == 1, "the side is slow");
    free_queue();
    note_wait(&pace, 1);
    sleep_for(1);
    note_wait(&pace, 2);
    check(pace.is_slow == 1, "one item in a millisecond is slow");
    note_wait(&pace, 1000000000);
    check(pace.is_slow == 0, "a thousand million items in less than an hour are not");
    note_items(&pace, QUICK_ITEMS);
    check(pace.is_quick == 1, "five items since the last wait are quick");
    note_items(&pace, 2 * QUICK_ITEMS - 1);
    check(pace.is_quick == 0, "and four are not");
}

static void *takes_to_its_end(void *with) {
    vahepito_item item;
    check(vahepito_take(queue, 1, &item, NULL) == VAHEPITO_GOT && item.words[0] == 7,
          "a take gets its item all the same");
    (void)pthread_setcancelstate(PTHREAD_CANCEL_DISABLE, NULL);
    return with;
}

static void does_nothing(int number) { (void)number; }

/* A call that waits doesn't end because of a signal, nor because its thread is cancelled. */
static void signals_and_cancellation(void) {
    struct sigaction action = {0};
    action.sa_handler = does_nothing;
    check(sigaction(SIGUSR1, &action, NULL) == 0, "there is a handler, after which no call begins anew");
    open_for_one();
    const pthread_t taking = started(takes_to_its_end, &action);
    let_them_sleep();
    check(!pthread_kill(taking, SIGUSR1) && !pthread_cancel(taking), "it is disturbed");
    let_them_sleep();
    check(vahepito_send(queue, 7, NULL) == VAHEPITO_ACCEPTED, "there is room");
    check(joined(taking) == &action, "it goes on after its call");
    free_queue();
}

/* A call until a moment returns then, or before. An item or room that comes in time is found. */
static void moments(void) {
    struct timespec moment = vahepito_after(0), wrong = {moment.tv_sec + 1000, 2000000000};
    vahepito_item item = {9, 9, 9, 9, {9}};
    uint64_t number = 99;
    open_for_one();
    check(vahepito_take_until(queue, 1, &item, &moment, &number) == VAHEPITO_EMPTY, "the moment is over");
    check(item.words[0] == 0 && number == 0, "and there is no item");
    check(vahepito_take_until(queue, 1, NULL, &wrong, NULL) == VAHEPITO_EMPTY, "no such moment comes");
    const time_t last = (time_t)(UINT64_MAX / 1000000000), before = vahepito_after(0).tv_sec;
    moment = vahepito_after(UINT64_MAX);
    check(moment.tv_nsec >= 0 && moment.tv_nsec < 1000000000, "the last moment has nanoseconds that are some");
    check(moment.tv_sec - before >= last && moment.tv_sec - vahepito_after(0).tv_sec <= last + 1,
          "and comes in 584 years");
    const uint64_t now = time_of(CLOCK_MONOTONIC);
    moment = vahepito_after(999999999);
    check((uint64_t)moment.tv_sec * 1000000000u + (uint64_t)moment.tv_nsec >= now + 999999999, "a second is one");
    moment = vahepito_after(30000000);
    check(vahepito_take_until(queue, 1, &item, &moment, NULL) == VAHEPITO_EMPTY, "no item comes");
    check(is_past(&moment), "until the moment");
    check(vahepito_send_until(queue, 1, &moment, &number) == VAHEPITO_ACCEPTED && number == 0, "there is room");
    check(vahepito_send_now(queue, 2, &number) == VAHEPITO_FULL && number == 0, "for one");
    moment = vahepito_after(30000000);
    check(vahepito_send_until(queue, 2, &moment, NULL) == VAHEPITO_FULL, "no room comes");
    check(is_past(&moment), "until the moment");
    moment = vahepito_after((uint64_t)100 << 30);
    const pthread_t sending = started(sends_second, NULL);
    let_them_sleep();
    check(vahepito_take_now(queue, 1, &item, NULL) == VAHEPITO_GOT && item.words[0] == 1, "there is one");
    check(vahepito_take_until(queue, 1, &item, &moment, NULL) == VAHEPITO_GOT && item.words[0] == 2, "and one comes");
    check(vahepito_take_now(queue, 1, NULL, NULL) == VAHEPITO_EMPTY, "and no more");
    (void)joined(sending);
    free_queue();
}

int main(void) {
    end_if_still();
    refusals();
    tries_are_few();
    waiting_is_parking();
    pace_is_noted();
    longer_slices();
    who_has_a_needed_processor_parks();
    batches_wake_at_once();
    signals_and_cancellation();
    moments();
    close_over_senders();
    close_over_receivers();
    printf("all waits end\n");
    return 0;
}
