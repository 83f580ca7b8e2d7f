/* What the library does with memory: linked with --wrap for malloc, posix_memalign, realloc and free, so that each of
 * its allocations is counted and can be refused.
 *
 * An opening that is refused memory says so, whichever of its allocations that is, leaves the handles empty and keeps
 * nothing. No later call takes memory, but a send of vahepito.h that needs a further queue. The last handle frees all,
 * and none before it frees the queue. */
#include "checks.h"
#include "handles.h"

#include <errno.h>

void *__real_malloc(size_t);
int __real_posix_memalign(void **, size_t, size_t);
void *__real_realloc(void *, size_t);
void __real_free(void *);

/* how many allocations were asked for, which of them is refused (0: none), and how many blocks there are */
static long asked, refused, blocks;

static int is_refused(void) { return ++asked == refused; }

void *__wrap_malloc(size_t size) {
    if (is_refused()) return NULL;
    void *at = __real_malloc(size);
    blocks += at != NULL;
    return at;
}

int __wrap_posix_memalign(void **at, size_t alignment, size_t size) {
    if (is_refused()) return ENOMEM;
    int refusal = __real_posix_memalign(at, alignment, size);
    blocks += refusal == 0;
    return refusal;
}

void *__wrap_realloc(void *old, size_t size) {
    if (is_refused()) return NULL;
    void *at = __real_realloc(old, size);
    blocks += old == NULL && at != NULL;
    return at;
}

void __wrap_free(void *at) {
    blocks -= at != NULL;
    __real_free(at);
}

/* As many receivers in each group. */
enum { SENDERS = 2, RECEIVERS = 3, MOST_GROUPS = 2, MOST_PASSES = SENDERS + MOST_GROUPS * RECEIVERS };

/* One receiver of each group takes: the take returns this code and total, and an item has this body. */
static void take_in_each(uint32_t groups, vahepito_handle *receivers, int k, uint32_t code, uint64_t body,
                         uint64_t total) {
    for (uint32_t g = 0; g < groups; g++) {
        uint64_t number = 0;
        uint32_t served = 0;
        vahepito_word_item item = {0};
        check(vahepito_begin_take(&receivers[g * RECEIVERS + k]) == VAHEPITO_BEGUN, "begun");
        check(vahepito_turn_take(&receivers[g * RECEIVERS + k], &item, &number, &served) == code,
              "the group's take is told so");
        check(item.body == body && number == total && served == 1, "and what it got");
    }
}

/* Every call of an open queue, with each answer. */
static void call_all(uint32_t groups, vahepito_handle *senders, vahepito_handle *receivers) {
    const uint64_t words[] = {8, 9};
    uint64_t number = 0;
    uint32_t served = 0;
    vahepito_word_item item = {0};
    take_in_each(groups, receivers, 0, VAHEPITO_EMPTY, 0, 0);
    check(vahepito_try_send(&senders[0], 7, &number, &served) == VAHEPITO_ACCEPTED && number == 0, "accepted");
    check(vahepito_begin_send_words(&senders[0], &words[0], 1) == VAHEPITO_BEGUN, "begun");
    check(vahepito_begin_send_words(&senders[1], &words[1], 1) == VAHEPITO_BEGUN, "begun");
    check(vahepito_turn_send(&senders[1], &number, &served) == VAHEPITO_WAITING, "waiting");
    check(vahepito_turn_send(&senders[0], &number, &served) == VAHEPITO_ACCEPTED && served == 2, "accepted");
    check(vahepito_turn_send(&senders[1], &number, &served) == VAHEPITO_FULL && served == 0, "full");
    take_in_each(groups, receivers, 1, VAHEPITO_GOT, 7, 0);
    check(vahepito_try_send(&senders[0], 10, &number, &served) == VAHEPITO_ACCEPTED && number == 2, "accepted");
    take_in_each(groups, receivers, 2, VAHEPITO_GOT, 8, 0);
    check(vahepito_try_send(&senders[1], 11, &number, &served) == VAHEPITO_SPENT, "spent");
    check(vahepito_try_send(&senders[0], 12, &number, &served) == VAHEPITO_WORN, "worn");
    check(vahepito_begin_close(&senders[0]) == VAHEPITO_BEGUN, "begun");
    check(vahepito_turn_close(&senders[0], &number, &served) == VAHEPITO_SHUT && number == 3, "shut");
    check(vahepito_begin_close(&senders[1]) == VAHEPITO_BEGUN, "begun");
    check(vahepito_turn_close(&senders[1], &number, &served) == VAHEPITO_ALREADY && number == 3, "already");
    check(vahepito_try_send(&senders[1], 13, &number, &served) == VAHEPITO_CLOSED, "closed");
    check(vahepito_try_take(&receivers[0], &item, &number, &served) == VAHEPITO_GOT && item.body == 10, "got");
    check(vahepito_try_take(&receivers[0], &item, &number, &served) == VAHEPITO_ENDED && number == 3, "ended");
    take_in_each(groups - 1, receivers + RECEIVERS, 0, VAHEPITO_GOT, 10, 0);
    take_in_each(groups, receivers, 1, VAHEPITO_ENDED, 0, 3);
}

/* Opens a queue of this number of groups. */
static uint32_t open_queue(uint32_t groups, vahepito_handle *senders, vahepito_handle *receivers) {
    /* of the life and of each sender's sends as many as call_all wants, so that both end in it */
    const vahepito_config config = {SENDERS, RECEIVERS, 2, 8, 3, 3};
    return vahepito_open_words(&config, groups, 1, senders, SENDERS, receivers, groups * RECEIVERS);
}

/* A queue of this number of groups, from its opening to the drop of its last handle. */
static void use_queue(uint32_t groups) {
    const uint32_t count = SENDERS + groups * RECEIVERS;
    vahepito_handle passes[MOST_PASSES] = {VAHEPITO_HANDLE_EMPTY};
    vahepito_handle *senders = passes, *receivers = passes + SENDERS;
    uint32_t code;
    for (refused = 1;; refused++) {
        asked = 0;
        code = open_queue(groups, senders, receivers);
        if (asked < refused) break;
        check(code == VAHEPITO_NO_MEMORY, "want of memory is told");
        check(blocks == 0, "nothing is kept");
        for (uint32_t k = 0; k < count; k++) check(!passes[k].live, "the handles are empty");
    }
    const long opening = asked, kept = blocks;
    check(code == VAHEPITO_DONE && kept > 0, "the queue is opened where nothing is refused");

    call_all(groups, senders, receivers);
    const uint64_t body = 14;
    check(vahepito_begin_send_words(&senders[1], &body, 1) == VAHEPITO_WORN, "worn");
    check(vahepito_begin_take(&receivers[2]) == VAHEPITO_BEGUN, "begun");
    check(asked == opening && blocks == kept, "no call takes memory or frees any");

    uint64_t accepted = 0, taken = 0, shut = 0;
    check(vahepito_accepted(&senders[0], &accepted) == VAHEPITO_DONE && accepted == 3, "three are accepted");
    check(vahepito_taken(&receivers[0], 1, &taken) == VAHEPITO_DONE && taken == 3, "and taken");
    check(vahepito_is_shut(&senders[1], &shut) == VAHEPITO_DONE && shut == 1, "it is shut");
    check(vahepito_accepted(&receivers[2], &accepted) == VAHEPITO_BUSY && accepted == 0,
          "a pass with a call doesn't look");
    check(asked == opening && blocks == kept, "no look takes memory or frees any");
    refused = 0;

    /* One of them has a call that was begun. */
    const long last = asked;
    for (uint32_t k = 0; k < count; k++) {
        check(blocks > 0, "the queue is there as long as a handle is");
        check(vahepito_drop(&passes[k]) == VAHEPITO_DONE && !passes[k].live, "a pass is let go");
    }
    check(asked == last, "no drop takes memory");
    check(blocks == 0, "the last handle frees the queue");
}

/* The queue of vahepito.h: its opening, and the further queue that a send needs, each refused each of its
 * allocations. */
static void use_row(void) {
    vahepito_attributes attributes = VAHEPITO_ATTRIBUTES;
    vahepito_queue *queue;
    vahepito_item item;
    uint64_t place = 9;
    uint32_t code;
    attributes.capacity = 4, attributes.groups = 2, attributes.places = RECEIVERS, attributes.life = 2;
    for (refused = 1;; refused++) {
        asked = 0;
        code = vahepito_create_as(&attributes, &queue);
        if (asked < refused) break;
        check(code == VAHEPITO_NO_MEMORY && queue == NULL && blocks == 0,
              "want of memory is told, and nothing is kept");
    }
    check(code == VAHEPITO_DONE, "the queue is opened where nothing is refused");
    const long kept = blocks;
    for (uint64_t number = 0; number < 2; number++) {
        asked = 0;
        check(vahepito_send(queue, number, &place) == VAHEPITO_ACCEPTED && place == number && asked == 0,
              "a send takes no memory");
    }
    for (refused = 1;; refused++) {
        asked = 0;
        code = vahepito_send(queue, 2, &place);
        if (asked < refused) break;
        check(code == VAHEPITO_NO_MEMORY && place == 0 && blocks == kept,
              "a send that needs a further queue is refused, and nothing has changed");
    }
    refused = 0;
    check(code == VAHEPITO_ACCEPTED && place == 2 && blocks > kept, "and then it is accepted");
    for (uint32_t group = 1; group <= 2; group++)
        for (uint64_t number = 0; number < 3; number++)
            check(vahepito_take(queue, group, &item, NULL) == VAHEPITO_GOT && item.words[0] == number &&
                      item.place == number,
                  "each group takes all");
    check(blocks == kept, "the queue that both groups have left is freed");
    vahepito_destroy(queue, NULL, NULL);
    check(blocks == 0, "and in the end all");
}

/* A queue without a bound: the further queue that a send needs, and the one that it opens beforehand, each refused each
 * of its allocations. */
static void use_unbounded(void) {
    for (long which = 0, all = 0; which <= all; which++) {
        vahepito_queue *const queue = vahepito_create(0);
        uint64_t items = 0;
        check(queue != NULL, "the queue is opened");
        while (items < 64) check(vahepito_send(queue, items++, NULL) == VAHEPITO_ACCEPTED, "there is room");
        asked = 0, refused = which;
        const uint32_t code = vahepito_send(queue, items, NULL);
        if (which == 0) all = asked;
        refused = 0;
        check(code == (which > 0 && which <= all / 2 ? VAHEPITO_NO_MEMORY : VAHEPITO_ACCEPTED),
              "the first one alone is needed");
        while (items < 1000) check(vahepito_send(queue, items++, NULL) == VAHEPITO_ACCEPTED, "and then there is room");
        vahepito_destroy(queue, NULL, NULL);
        check(blocks == 0, "and in the end all is freed");
    }
}

int main(void) {
    use_row();
    use_unbounded();
    for (uint32_t groups = 1; groups <= MOST_GROUPS; groups++) use_queue(groups);
    printf("all memory is free\n");
    return 0;
}
