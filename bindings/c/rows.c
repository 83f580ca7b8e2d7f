/* The row of a queue: small limits, so that a queue is used up after a few items and a further one follows, by many
 * threads; a queue without a bound; what is left at the end; batches; and descriptors for poll.
 *
 *     rows [ITEMS]
 *
 * It ends with status 0 if each group got each item once, each sender's in their order and with rising places, there
 * were never more items than the capacity, all memory but a few queues was freed on the way, and each call returned
 * what it has to. If a wake-up is lost it ends by a signal. ITEMS (300) is how many each of 8 threads sends. */
#include "vahepito_queue.c" /* whose parts it looks into */

#include "checks.h"

enum { SENDING = 8, TAKING = 4, GROUPS_AT_MOST = 3, TAKING_AT_MOST = GROUPS_AT_MOST * TAKING, MOST_ITEMS = 4096 };

static uint64_t items = 300;
static vahepito_queue *queue;
/* How many items are accepted and not taken by the first group, as the threads count them: too few of them. */
static int64_t inside;
static uint64_t place_counts[SENDING * MOST_ITEMS];

struct shape {
    uint32_t capacity, groups, places, per_sender;
    uint64_t life;
    uint32_t words; /* of an item: 1 or 2 */
};

static void open_as(const struct shape *shape) {
    vahepito_attributes attributes = VAHEPITO_ATTRIBUTES;
    attributes.capacity = shape->capacity, attributes.groups = shape->groups, attributes.places = shape->places;
    attributes.per_sender = shape->per_sender, attributes.life = shape->life, attributes.words = shape->words;
    check(vahepito_create_as(&attributes, &queue) == VAHEPITO_DONE && queue, "the queue is opened");
}

/* No call has a seat, none is in a line, or was notified and isn't, and none is parked. */
static void free_queue(void) {
    for (uint32_t k = 0; k < queue->places; k++) check(!queue->seats[k].is_taken, "no call has a seat");
    check(queue->senders.counts == 0 && queue->served.waiting != PARKED, "no send waits");
    for (uint32_t k = 0; k < queue->groups; k++) check(queue->receivers[k].counts == 0, "no take waits");
    vahepito_destroy(queue, NULL, NULL);
}

/* ---- many threads */

/* A try of a send: one that waits, one that waits for some time, or one that doesn't. An item's second word is the
 * complement of the first one. */
static uint32_t send_once(uint32_t kind, uint64_t word, uint64_t *place) {
    const uint64_t words[2] = {word, ~word};
    const struct timespec soon = vahepito_after(50000);
    if (queue->words == 1)
        return kind == 0   ? vahepito_send(queue, word, place)
               : kind == 1 ? vahepito_send_now(queue, word, place)
                           : vahepito_send_until(queue, word, &soon, place);
    return kind == 0   ? vahepito_send_words(queue, words, 2, place)
           : kind == 1 ? vahepito_send_words_now(queue, words, 2, place)
                       : vahepito_send_words_until(queue, words, 2, &soon, place);
}

static void *sends(void *at) {
    const uint32_t thread = *(const uint32_t *)at;
    uint64_t last = 0;
    for (uint64_t number = 1; number <= items; number++) {
        uint64_t place;
        uint32_t code;
        while ((code = send_once(thread % 3, item_of(thread, number), &place)) == VAHEPITO_FULL) sched_yield();
        check(code == VAHEPITO_ACCEPTED, "a send is accepted in the end");
        check(number == 1 || place > last, "places rise");
        check(place < SENDING * items && __atomic_fetch_add(&place_counts[place], 1, __ATOMIC_RELAXED) == 0,
              "each place is given once");
        const int64_t now = __atomic_add_fetch(&inside, 1, __ATOMIC_SEQ_CST);
        const uint32_t capacity = vahepito_capacity(queue);
        check(capacity == 0 || now <= (int64_t)capacity, "there are never more items than the capacity");
        if (number % 100 == 50) sleep_for(1); /* so that others park */
        last = place;
    }
    return NULL;
}

static void start_sends(pthread_t *threads) {
    static uint32_t numbers[SENDING];
    for (uint32_t k = 0; k < SENDING; k++) numbers[k] = k, threads[k] = started(sends, &numbers[k]);
}

struct worker {
    uint32_t group, number;
    uint64_t got, sum, total;
};

/* A take, of several items, or for some time, or as it waits. */
static uint32_t take_once(struct worker *mine, vahepito_item *got, size_t *count) {
    const struct timespec soon = vahepito_after(50000);
    *count = 1;
    if (mine->number == 3 && mine->group != 1)
        return vahepito_take_many(queue, mine->group, got, 5, NULL, count, &mine->total);
    if (mine->number == 2) return vahepito_take_until(queue, mine->group, got, &soon, &mine->total);
    return vahepito_take(queue, mine->group, got, &mine->total);
}

static void *takes(void *at) {
    struct worker *const mine = at;
    uint64_t last[SENDING] = {0}, last_place = 0;
    vahepito_item got[5];
    for (;;) {
        size_t count;
        uint32_t code;
        /* It is counted before it is taken, so that the count is never too high. */
        if (mine->group == 1) __atomic_sub_fetch(&inside, 1, __ATOMIC_SEQ_CST);
        while ((code = take_once(mine, got, &count)) == VAHEPITO_EMPTY) continue;
        if (code == VAHEPITO_ENDED) return NULL;
        check(code == VAHEPITO_GOT && count > 0 && count <= 5, "a take gets an item, or is told the end");
        for (size_t k = 0; k < count; k++) {
            const uint64_t word = got[k].words[0], number = (uint32_t)word, thread = word >> 32;
            check(got[k].count == queue->words && got[k].words[1] == (got[k].count == 2 ? ~word : 0),
                  "an item comes as it was sent");
            check(thread < SENDING && number > last[thread], "each thread's items come in order");
            check(mine->got == 0 || got[k].place > last_place, "places rise");
            last[thread] = number, last_place = got[k].place, mine->got++, mine->sum += number;
        }
    }
}

static uint64_t parts_kept(void) {
    uint64_t count = 0;
    for (const queue_part *part = queue->first; part; part = part->next) count++;
    for (const queue_part *part = queue->retired; part; part = part->next) count++;
    return count;
}

static void many_threads(const struct shape *shape) {
    pthread_t sending[SENDING], taking[TAKING_AT_MOST];
    struct worker workers[TAKING_AT_MOST] = {{0, 0, 0, 0, 0}};
    const uint32_t takers = shape->groups * TAKING;
    uint64_t total, got[GROUPS_AT_MOST] = {0}, sum[GROUPS_AT_MOST] = {0};
    open_as(shape);
    memset(place_counts, 0, sizeof place_counts);
    inside = 0;
    for (uint32_t k = 0; k < takers; k++) {
        workers[k].group = k / TAKING + 1, workers[k].number = k % TAKING;
        taking[k] = started(takes, &workers[k]);
    }
    start_sends(sending);
    join_all(sending, SENDING);
    check(!vahepito_is_closed(queue) && vahepito_close(queue, &total) == VAHEPITO_SHUT && total == SENDING * items,
          "all were accepted");
    check(vahepito_is_closed(queue) && vahepito_close(queue, &total) == VAHEPITO_ALREADY && total == SENDING * items,
          "it is closed once");
    join_all(taking, takers);
    for (uint32_t k = 0; k < takers; k++) {
        check(workers[k].total == total, "the end tells the total");
        got[k / TAKING] += workers[k].got, sum[k / TAKING] += workers[k].sum;
    }
    for (uint32_t group = 0; group < shape->groups; group++)
        check(got[group] == total && sum[group] == SENDING * (items * (items + 1) / 2),
              "each group got each item once");
    check(shape->life == 0 || queue->last->number + 1 >= total / shape->life, "there were many queues");
    /* How many are kept before that depends on how long a thread was stopped in a seat. */
    retire_parts(queue);
    check(parts_kept() == 1, "of which the last one is left, when no call has a seat");
    check(vahepito_length(queue) == 0, "nothing is left");
    check(vahepito_send(queue, 1, NULL) == VAHEPITO_CLOSED, "and nothing is accepted");
    free_queue();
}

/* ---- one thread */

/* The bound over several queues: sends are refused when `capacity` items are there, in whichever queues of the row. */
static void bound_over_queues(uint32_t capacity, uint32_t per_sender, uint64_t life, uint32_t groups) {
    const struct shape shape = {capacity, groups, 1, per_sender, life, 1};
    uint64_t dice = capacity * 7 + life, sent = 0, taken[GROUPS_AT_MOST] = {0};
    vahepito_item item;
    open_as(&shape);
    for (int step = 0; step < 3000; step++) {
        const uint32_t kind = roll(&dice, groups + 1);
        uint64_t least = taken[0];
        for (uint32_t group = 1; group < groups; group++)
            if (taken[group] < least) least = taken[group];
        if (kind == 0) {
            uint64_t place;
            const uint32_t code = vahepito_send_now(queue, sent, &place);
            check(code == (sent - least < capacity ? VAHEPITO_ACCEPTED : VAHEPITO_FULL),
                  "there is room, or there is none");
            if (code == VAHEPITO_ACCEPTED) check(place == sent++, "places have no gap");
        } else {
            const uint32_t code = vahepito_take_now(queue, kind, &item, NULL);
            check(code == (taken[kind - 1] < sent ? VAHEPITO_GOT : VAHEPITO_EMPTY),
                  "there is an item, or there is none");
            if (code == VAHEPITO_GOT)
                check(item.words[0] == taken[kind - 1] && item.place == taken[kind - 1], "in order"), taken[kind - 1]++;
        }
        least = taken[0];
        for (uint32_t group = 1; group < groups; group++)
            if (taken[group] < least) least = taken[group];
        check(vahepito_length(queue) == sent - least, "the length is that of the slowest group");
    }
    check(queue->last->number > 5, "in many queues");
    vahepito_destroy(queue, NULL, NULL);
}

static uint64_t left_count, left_sum, left_groups;

static void is_left(void *with, uint32_t group, const vahepito_item *item) {
    check(with == &left_count, "it comes with what was given");
    left_count++, left_sum += item->words[0], left_groups += group;
}

/* A queue without a bound grows, and what is left in it goes to a function. */
static void no_bound(void) {
    const struct shape shape = {0, 2, 0, 0, 100, 1};
    vahepito_item item;
    open_as(&shape);
    check(vahepito_capacity(queue) == 0, "it has no bound");
    for (uint64_t number = 1; number <= 1000; number++)
        check(vahepito_send_now(queue, number, NULL) == VAHEPITO_ACCEPTED, "there is always room");
    check(vahepito_length(queue) == 1000, "they are all there");
    for (uint64_t number = 1; number <= 990; number++)
        check(vahepito_take_now(queue, 2, &item, NULL) == VAHEPITO_GOT && item.words[0] == number, "in order");
    left_count = left_sum = left_groups = 0;
    vahepito_destroy(queue, is_left, &left_count);
    check(left_count == 1010 && left_sum == 500500 + 9955 && left_groups == 1000 + 20,
          "what each group had left was given, for its group");
    queue = vahepito_create(0);
    check(queue != NULL, "a queue without a bound is opened");
    for (uint64_t number = 0; number < 20000; number++)
        check(vahepito_send(queue, number, NULL) == VAHEPITO_ACCEPTED, "there is always room");
    check(queue->last->number > 2, "in several queues");
    for (uint64_t number = 0; number < 20000; number++)
        check(vahepito_take_now(queue, 1, &item, NULL) == VAHEPITO_GOT && item.words[0] == number, "in order");
    check(parts_kept() <= 2, "and those that are done with are freed");
    vahepito_destroy(queue, NULL, NULL);
}

/* A call that is stopped in its seat, at the first queue. */
static void stalled(void) {
    const struct shape shape = {0, 1, 8, 0, 100, 1};
    vahepito_item item;
    open_as(&shape);
    queue->seats[5].is_taken = (uintptr_t)queue->first;
    for (uint64_t number = 1; number <= 5000; number++)
        check(vahepito_send_now(queue, number, NULL) == VAHEPITO_ACCEPTED &&
                  vahepito_take_now(queue, 1, &item, NULL) == VAHEPITO_GOT,
              "the others go on");
    check(queue->last->number >= 49 && parts_kept() == 2, "its queue is kept, and no other one that is done with");
    queue->seats[5].is_taken = 0;
    retire_parts(queue);
    check(parts_kept() == 1, "until it returns");
    vahepito_destroy(queue, NULL, NULL);
}

/* Groups leave: what they have left takes up no room, and the last one closes the queue. */
static void *leaves(void *unused) {
    vahepito_item item;
    for (int count = 0; count < 100; count++)
        check(vahepito_take(queue, 2, &item, NULL) == VAHEPITO_GOT, "the group takes");
    check(vahepito_leave(queue, 2) == VAHEPITO_DONE, "and leaves");
    return unused;
}

static void leaving(const struct shape *shape) {
    const uint64_t words[2] = {7, 8};
    pthread_t thread, sending[SENDING];
    uint64_t total, taken = 0;
    vahepito_item item;
    open_as(shape);
    memset(place_counts, 0, sizeof place_counts);
    inside = INT64_MIN / 2; /* the bound isn't looked at here */
    thread = started(leaves, NULL);
    start_sends(sending);
    while (taken < SENDING * items)
        check(vahepito_take(queue, 1, &item, NULL) == VAHEPITO_GOT && item.place == taken++, "the other group has all");
    join_all(sending, SENDING);
    (void)joined(thread);
    check(vahepito_length(queue) == 0, "nothing is left of either");
    check(vahepito_send_many(queue, words, 1, NULL, NULL) == VAHEPITO_ACCEPTED &&
              vahepito_take(queue, 1, &item, NULL) == VAHEPITO_GOT,
          "a batch too");
    check(vahepito_length(queue) == 0 && !vahepito_is_closed(queue), "and it is open");
    check(vahepito_leave(queue, 3) == VAHEPITO_BAD_GROUPS && vahepito_leave(queue, 0) == VAHEPITO_BAD_GROUPS,
          "no other group leaves");
    check(vahepito_leave(queue, 1) == VAHEPITO_DONE && vahepito_send(queue, 1, NULL) == VAHEPITO_CLOSED,
          "the last one closes it");
    check(vahepito_close(queue, &total) == VAHEPITO_ALREADY && total == SENDING * items + 1, "after all items");
    vahepito_destroy(queue, NULL, NULL);
}

/* Batches: as many as there is room for, and as many as there are. */
static void batches(void) {
    const struct timespec now = {0, 0}, soon = vahepito_after(20000000);
    const uint64_t words[6] = {1, 2, 3, 4, 5, 6};
    vahepito_item got[6];
    size_t count = 99;
    uint64_t total = 99;
    queue = opened(4, 1);
    check(vahepito_send_many(queue, words, 0, &now, &count) == VAHEPITO_ACCEPTED && count == 0, "none are none");
    check(vahepito_send_many(queue, words, 6, &now, &count) == VAHEPITO_FULL && count == 4, "four have room");
    errno = 77;
    check(vahepito_send_many(queue, words, 1, &soon, &count) == VAHEPITO_FULL && count == 0,
          "and no more, until the moment");
    check(errno == 77, "a wait changes no errno");
    check(vahepito_take_many(queue, 1, got, 3, NULL, &count, &total) == VAHEPITO_GOT && count == 3 && total == 0,
          "three are taken");
    check(got[0].words[0] == 1 && got[1].words[0] == 2 && got[2].words[0] == 3 && got[2].place == 2, "in order");
    check(vahepito_take_many(queue, 1, got, 6, NULL, &count, NULL) == VAHEPITO_GOT && count == 1 &&
              got[0].words[0] == 4,
          "and what is left");
    check(vahepito_take_many(queue, 1, got, 6, &now, &count, NULL) == VAHEPITO_EMPTY && count == 0, "and then none");
    check(vahepito_take_many(queue, 1, got, 0, NULL, &count, NULL) == VAHEPITO_EMPTY && count == 0, "none are none");
    check(vahepito_take_many(queue, 2, got, 6, NULL, &count, &total) == VAHEPITO_BAD_GROUPS && count == 0 && total == 0,
          "there is one group");
    check(vahepito_send_many(queue, words, 2, NULL, &count) == VAHEPITO_ACCEPTED && count == 2, "two have room");
    check(vahepito_close(queue, &total) == VAHEPITO_SHUT && total == 6, "it is closed");
    check(vahepito_send_many(queue, words, 2, NULL, &count) == VAHEPITO_CLOSED && count == 0,
          "nothing is accepted then");
    check(vahepito_take_many(queue, 1, got, 6, NULL, &count, &total) == VAHEPITO_GOT && count == 2 && total == 0,
          "what was accepted is taken");
    check(vahepito_take_many(queue, 1, got, 6, NULL, &count, &total) == VAHEPITO_ENDED && count == 0 && total == 6,
          "and then it ends");
    vahepito_destroy(queue, NULL, NULL);
}

int main(int count, char **words) {
    static const struct shape shapes[] = {
        {1, 1, 1, 5, 7, 2},  {3, 1, 2, 5, 7, 1}, {64, 1, 8, 5, 7, 1}, {4, 2, 2, 5, 7, 2}, {16, 3, 4, 2, 3, 1},
        {5, 1, 3, 1, 1, 1},  {0, 1, 2, 5, 7, 2}, {0, 3, 0, 5, 7, 1},  {8, 1, 1, 3, 0, 2}, {2, 2, 8, 0, 2, 1},
        {4096, 1, 0, 0, 9, 1}, {8, 2, 0, 0, 0, 1}, {1, 1, 0, 0, 0, 1}, {64, 1, 0, 0, 0, 2}, {0, 1, 0, 0, 0, 1},
    };
    size_t at = 0;
    if (count > 1) items = strtoull(words[1], NULL, 10);
    check(items <= MOST_ITEMS, "so many items");
    end_if_still();
    for (uint32_t groups = 1; groups <= 3; groups++) {
        bound_over_queues(1, 5, 7, groups);
        bound_over_queues(3, 5, 7, groups);
        bound_over_queues(9, 2, 3, groups);
        bound_over_queues(20, 1, 1, groups);
    }
    no_bound();
    stalled();
    leaving(&(struct shape){3, 2, 2, 0, 0, 1});
    leaving(&(struct shape){8, 2, 1, 0, 7, 2});
    leaving(&(struct shape){0, 2, 0, 0, 100, 1});
    batches();
    for (; at < sizeof shapes / sizeof *shapes; at++) many_threads(&shapes[at]);
    printf("%zu rows\n", at);
    return 0;
}
