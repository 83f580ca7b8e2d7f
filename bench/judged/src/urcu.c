/* The queues of liburcu: wfcqueue, whose takes have a lock, and rculfqueue. */
#define _LGPL_SOURCE
#include "c.h"

#include <stdlib.h>
#include <string.h>
#include <urcu.h>
#include <urcu/rculfqueue.h>
#include <urcu/wfcqueue.h>

struct waitfree {
    struct cds_wfcq_head head;
    struct cds_wfcq_tail tail;
};

struct waitfree_node {
    struct cds_wfcq_node node;
    uint64_t item;
};

struct lockfree_node {
    struct cds_lfq_node_rcu node;
    struct rcu_head head;
    uint64_t item;
};

static void *room(size_t size) {
    void *bytes = calloc(1, size);
    if (!bytes) abort();
    return bytes;
}

static int send_waitfree(void *queue, uint64_t item) {
    struct waitfree *mine = queue;
    struct waitfree_node *node = room(sizeof *node);
    node->item = item;
    cds_wfcq_node_init(&node->node);
    cds_wfcq_enqueue(&mine->head, &mine->tail, &node->node);
    return 1;
}

static int take_waitfree(void *queue, uint64_t *item) {
    struct waitfree *mine = queue;
    struct cds_wfcq_node *node = cds_wfcq_dequeue_blocking(&mine->head, &mine->tail);
    struct waitfree_node *its = node ? caa_container_of(node, struct waitfree_node, node) : NULL;
    if (!its) return 0;
    *item = its->item;
    free(its);
    return 1;
}

static int send_lockfree(void *queue, uint64_t item) {
    struct lockfree_node *node = room(sizeof *node);
    node->item = item;
    cds_lfq_node_init_rcu(&node->node);
    rcu_read_lock();
    cds_lfq_enqueue_rcu(queue, &node->node);
    rcu_read_unlock();
    return 1;
}

static void free_lockfree(struct rcu_head *head) { free(caa_container_of(head, struct lockfree_node, head)); }

static int take_lockfree(void *queue, uint64_t *item) {
    struct cds_lfq_node_rcu *node;
    struct lockfree_node *its;
    rcu_read_lock();
    node = cds_lfq_dequeue_rcu(queue);
    rcu_read_unlock();
    if (!node) return 0;
    its = caa_container_of(node, struct lockfree_node, node);
    *item = its->item;
    call_rcu(&its->head, free_lockfree);
    return 1;
}

static void enter(void) { rcu_register_thread(); }
static void leave(void) { rcu_unregister_thread(); }

int urcu_queue(const char *name, struct c_queue *out) {
    memset(out, 0, sizeof *out);
    out->enter = enter, out->leave = leave;
    if (strcmp(name, "urcu_wfcqueue") == 0) {
        struct waitfree *mine = room(sizeof *mine);
        cds_wfcq_init(&mine->head, &mine->tail);
        out->queue = mine, out->send = send_waitfree, out->take = take_waitfree;
    } else if (strcmp(name, "urcu_rculfqueue") == 0) {
        struct cds_lfq_queue_rcu *mine = room(sizeof *mine);
        cds_lfq_init_rcu(mine, call_rcu);
        out->queue = mine, out->send = send_lockfree, out->take = take_lockfree;
    }
    return out->queue != NULL;
}
