/* The queues of Concurrency Kit. Nodes of its fifos are not freed: a run is short, and that needs a scheme of its own.
 * No item is a null pointer: each is one more. */
#include "c.h"

#include <ck_fifo.h>
#include <ck_ring.h>
#include <stdlib.h>
#include <string.h>

#ifndef PLACES
#define PLACES 16
#endif

struct ring {
    ck_ring_t ring;
    ck_ring_buffer_t places[PLACES];
};

/* Room for a queue or a node, in a line of the cache of its own, all zeros. */
static void *room(size_t size) {
    void *bytes = aligned_alloc(64, (size + 63) / 64 * 64);
    if (!bytes) abort();
    return memset(bytes, 0, size);
}

static void *pointer(uint64_t item) { return (void *)(uintptr_t)(item + 1); }

static int taken(int found, void *value, uint64_t *item) {
    if (found) *item = (uint64_t)(uintptr_t)value - 1;
    return found;
}

static int send_mpmc(void *queue, uint64_t item) {
    ck_fifo_mpmc_enqueue(queue, room(sizeof(ck_fifo_mpmc_entry_t)), pointer(item));
    return 1;
}

static int take_mpmc(void *queue, uint64_t *item) {
    ck_fifo_mpmc_entry_t *node;
    void *value = NULL;
    const int found = ck_fifo_mpmc_dequeue(queue, &value, &node);
    return taken(found, value, item);
}

static int send_spsc(void *queue, uint64_t item) {
    ck_fifo_spsc_enqueue(queue, room(sizeof(ck_fifo_spsc_entry_t)), pointer(item));
    return 1;
}

static int take_spsc(void *queue, uint64_t *item) {
    void *value = NULL;
    const int found = ck_fifo_spsc_dequeue(queue, &value);
    return taken(found, value, item);
}

static int send_ring(void *queue, uint64_t item) {
    struct ring *mine = queue;
    return ck_ring_enqueue_mpmc(&mine->ring, mine->places, pointer(item));
}

static int take_ring(void *queue, uint64_t *item) {
    struct ring *mine = queue;
    void *value = NULL;
    const int found = ck_ring_dequeue_mpmc(&mine->ring, mine->places, &value);
    return taken(found, value, item);
}

static int send_ring_spsc(void *queue, uint64_t item) {
    struct ring *mine = queue;
    return ck_ring_enqueue_spsc(&mine->ring, mine->places, pointer(item));
}

static int take_ring_spsc(void *queue, uint64_t *item) {
    struct ring *mine = queue;
    void *value = NULL;
    const int found = ck_ring_dequeue_spsc(&mine->ring, mine->places, &value);
    return taken(found, value, item);
}

int ck_queue(const char *name, struct c_queue *out) {
    memset(out, 0, sizeof *out);
    if (strcmp(name, "ck_fifo_mpmc") == 0) {
        out->queue = room(sizeof(ck_fifo_mpmc_t)), out->send = send_mpmc, out->take = take_mpmc;
        ck_fifo_mpmc_init(out->queue, room(sizeof(ck_fifo_mpmc_entry_t)));
    } else if (strcmp(name, "ck_fifo_spsc") == 0) {
        out->queue = room(sizeof(ck_fifo_spsc_t)), out->send = send_spsc, out->take = take_spsc;
        ck_fifo_spsc_init(out->queue, room(sizeof(ck_fifo_spsc_entry_t)));
    } else if (strcmp(name, "ck_ring_mpmc") == 0 || strcmp(name, "ck_ring_spsc") == 0) {
        const int mpmc = strcmp(name, "ck_ring_mpmc") == 0;
        struct ring *mine = room(sizeof *mine);
        ck_ring_init(&mine->ring, PLACES);
        out->queue = mine, out->send = mpmc ? send_ring : send_ring_spsc, out->take = mpmc ? take_ring : take_ring_spsc;
    }
    return out->queue != NULL;
}
