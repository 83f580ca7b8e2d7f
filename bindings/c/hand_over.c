/* Boxes of malloc that threads fill, hand over by a queue as pointers, read, write to and free: for the thread
 * sanitizer, which sees none of the queue's steps and learns of the hand-over from the header. Half of the threads
 * wait, and half try until there is room, or an item.
 *
 *     hand_over [BOXES]
 *
 * It ends with status 0 where each box came once, as it was filled. */
#include "checks.h"

enum { EACH = 4 };

struct box {
    uint64_t number, twice;
};

static vahepito_queue *queue;
static uint64_t boxes = 1000; /* of each thread */
static int numbers[EACH] = {0, 1, 2, 3};

/* One send by a thread: it waits for room, or tries until there is. */
static uint32_t sends(int thread, uint64_t word) {
    uint32_t code;
    if (thread < 2) return vahepito_send(queue, word, NULL);
    while ((code = vahepito_send_now(queue, word, NULL)) == VAHEPITO_FULL) sched_yield();
    return code;
}

/* One take so. */
static uint32_t takes(int thread, vahepito_item *item) {
    uint32_t code;
    if (thread < 2) return vahepito_take(queue, 1, item, NULL);
    while ((code = vahepito_take_now(queue, 1, item, NULL)) == VAHEPITO_EMPTY) sched_yield();
    return code;
}

static void *send_boxes(void *thread) {
    for (uint64_t number = 1; number <= boxes; number++) {
        struct box *box = malloc(sizeof *box);
        check(box != NULL, "there is memory");
        box->number = number;
        box->twice = 2 * number;
        check(sends(*(int *)thread, (uintptr_t)box) == VAHEPITO_ACCEPTED, "a box is sent");
    }
    return NULL;
}

static void *take_boxes(void *thread) {
    vahepito_item item;
    uint64_t sum = 0;
    uint32_t code;
    while ((code = takes(*(int *)thread, &item)) == VAHEPITO_GOT) {
        struct box *box = (struct box *)(uintptr_t)item.words[0];
        check(box->twice == 2 * box->number, "a box is as it was filled");
        sum += box->number;
        box->number = 0;
        free(box);
    }
    check(code == VAHEPITO_ENDED, "the end is told");
    return (void *)(uintptr_t)sum;
}

int main(int count, char **words) {
    pthread_t sending[EACH], taking[EACH];
    uint64_t sum = 0;
    if (count > 1) boxes = strtoull(words[1], NULL, 10);
    queue = opened(3, 1);
    for (int k = 0; k < EACH; k++) {
        taking[k] = started(take_boxes, &numbers[k]);
        sending[k] = started(send_boxes, &numbers[k]);
    }
    join_all(sending, EACH);
    check(vahepito_close(queue, NULL) == VAHEPITO_SHUT, "the queue is closed");
    for (int k = 0; k < EACH; k++) sum += (uintptr_t)joined(taking[k]);
    check(sum == EACH * (boxes * (boxes + 1) / 2), "each box came once");
    vahepito_destroy(queue, NULL, NULL);
    printf("%llu boxes\n", (unsigned long long)(EACH * boxes));
    return 0;
}
