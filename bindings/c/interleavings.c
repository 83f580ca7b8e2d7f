/* No wake-up is lost: the code of vahepito_queue.c in every interleaving of small models.
 *
 * A process makes calls of vahepito.h. Its steps are the code's accesses to the counts of a line and to the mark of a
 * close, its lock, its futex calls, and its calls of the proved library. Here the counts, the lock, the futex and the
 * library are models: a bounded queue whose calls take one step, without memory for a further one, and the kernel's
 * futex, which may wake any one that sleeps, may time out, and may once wake a process for nothing. The row has one
 * queue (row_interleavings.c has rows of several). The search visits all states that the processes reach. It replays a
 * process from its start with the results of its steps so far, up to the next step.
 *
 * In some models the queue has descriptors from the start. A process polls one of them without end, and then makes a
 * call whose moment is now, until the call finds something. A descriptor is modelled by one bit, whether it is
 * readable.
 *
 * In some models a call is begun in one step, and is answered in its next one.
 *
 * In some models groups leave while senders wait for room. In a state in which no process makes a step, no item is left
 * of a group that has left, and the queue is closed if all groups have left.
 *
 * In other models the calls of a side combine, and a call that waits for its answer parks. A call gets its place in the
 * chain of its side by a locked instruction. The first call of the chain serves itself and those behind it, up to a
 * bound, and hands over to the next place. Its answers and its hand-over wait in the store buffer of its process. They
 * leave the buffer at any later time, in their order. A locked instruction, a lock and a futex call wait until the
 * buffer is empty. A running program looks again after a millisecond; here a call whose wake-up is lost is parked for
 * good. A call was parked before these models begin: the first one of all may be missed (bindings/WAITS.md).
 *
 * The code keeps the rules of which crates/cc_waits proves that no wake-up is lost and no descriptor misses something:
 * each step is looked at as an event of the machines `Line` and `Bell`, and in each state the counts of a line, and the
 * bits of a descriptor, are as the proofs of these laws have them (`Holds`). A step after which a rule is broken is
 * wrong.
 *
 * It ends with status 0 if no rule is broken; if this holds in each state in which no process makes a step: no process
 * sleeps, in a line or in a poll, whose try would find something, the counts of each line are those of the processes
 * that sleep there, and the line for answers isn't marked PARKED; and if no call returns before its answer. With
 * --faults it ends with status 0 if this fails in some state, whatever the rules say; with --faults RULE, if this rule
 * is broken: so the Makefile compiles it with each fault of wait_faults.txt in the code. With --sizes it prints how
 * many states each model has. */
#ifndef _POSIX_C_SOURCE
#define _POSIX_C_SOURCE 200809L
#endif
#include <errno.h>
#include <limits.h>
#include <pthread.h>
#include <setjmp.h>
#include <stdarg.h>
#include <stdbool.h>
#include <stdint.h>
#include <stdio.h>
#include <stdlib.h>
#include <string.h>
#include <sys/syscall.h>
#include <unistd.h>

#define __atomic_load_n(place, order) model_load(place)
#define __atomic_exchange_n(place, value, order) model_swap((uint32_t *)(place), (uint32_t)(value))
#define __atomic_fetch_add(place, by, order) model_add(place, (uint64_t)(by))
#define __atomic_fetch_sub(place, by, order) model_add(place, -(uint64_t)(by))
#define __atomic_fetch_or(place, by, order) ((void)(place), (uint32_t)(by)) /* a hint that there was no room */
#define __atomic_compare_exchange_n(place, old, new, weak, order, other) model_exchange(place, old, new)
#define __atomic_store_n(place, value, order) model_store(place, (uint64_t)(value))
#define pthread_mutex_lock(lock) ((void)(lock), model_lock())
#define pthread_mutex_unlock(lock) ((void)(lock), model_unlock())
#define syscall model_futex
/* A call that waits for its answer parks at once in the models whose calls combine, and never in the others. */
#define VAHEPITO_SERVED_TIME model_served_time()
#define VAHEPITO_PROCESSORS 0 /* which only say when a call parks */
#define VAHEPITO_SPIN_TIME 0
#define VAHEPITO_AHEAD 0
static uint64_t model_load(const void *place), model_served_time(void);
static uint32_t model_swap(uint32_t *place, uint32_t value);
static uint64_t model_add(const void *place, uint64_t by);
static bool model_exchange(uint64_t *place, uint64_t *old, uint64_t new);
static void model_store(const void *place, uint64_t value);
static int model_lock(void), model_unlock(void);
#include SOURCE

/* The calls that wait for their answer are in one line more, on whose second word they sleep. */
enum { PROCESSES = 4, GROUPS = 2, LINES = 1 + GROUPS, SERVED, CALLS = 3, LONGEST = 400, STORES = 4 };

/* ---- models */

/* The calls of each process, in order: a send or a take of group 1 or 2 (s, t, u), the same until a moment (S, T, U),
 * or now (m, n); two sends or takes at once (b, k); a send that is refused memory at its third try (w); as a fault, a
 * send with a notification before it (e); a close (c); polls, and sends or takes of group 1 or 2 after each, until one
 * finds something (r, p, q); group 1 or 2 leaves (x, y). */
struct model {
    const char *calls[PROCESSES];
    int capacity, groups, life, wakes_for_nothing;
    bool has_turns; /* whether a call is answered in its second step */
    bool looks; /* whether a send looks at the counts first */
    uint8_t bound; /* how many calls one serves at most, if they combine; or 0 */
    uint8_t bells; /* which descriptors there are: 1 of the senders, 2 and 4 of the groups */
};

static const struct model *model;
static bool has_leaves;                /* whether a group leaves in it */
static const char *fault;              /* what is wrong */
static const char *wanted;             /* the one rule that counts then, or NULL */
static bool has_rules = true;          /* else no rule counts */

static void is_wrong(const char *what) {
    if (!fault && !wanted) fault = what;
}

static void breaks(const char *rule) {
    if (!fault && has_rules && (!wanted || strcmp(rule, wanted) == 0)) fault = rule;
}

/* ---- a process, step by step */

enum kind {
    DONE, LOAD, ADD, EXCHANGE, SLEEP, WAKE, TRY_SEND, TRY_TAKE, TURN_SEND, TURN_TAKE, CLOSE, LOOK_SENT, LOOK_TAKEN,
    LOOK_CLOSED, MARK_CLOSED, LOCK, UNLOCK, SEAT, COMBINE, TURN_COMBINED, LOAD_WAITING, LOAD_ENDED, SWAP_WAITING,
    ADD_ENDED, POLL, DRAIN, RING, LOAD_ARMED, SWAP_ARMED, LOAD_LEFT, MARK_LEFT, LOOK_CLOSING, MARK_CLOSING
};

struct step {
    enum kind kind;
    int line; /* or the group of a take, of a descriptor, or that has left: 0 if any has */
    uint64_t value, next; /* of DONE, the code of the call */
    bool has_time;
};

/* Where a call is in the machines of crates/cc_waits, by its own steps so far. */
enum where { OUT, LOOKING, LEAVING, PARKING, RETRYING };

struct place {
    enum where where;
    int line;                 /* the one that it was in last, or -1 */
    uint8_t owed[LINES];      /* of each line, how many things it made and hasn't notified for */
    uint8_t wakes;            /* how many calls it has yet to wake */
    bool is_refused;          /* it has a notification to pass on */
    uint8_t closing;          /* bits of lines: it closed, and has yet to notify all */
    uint8_t unchecked, ringing, arming, watching; /* bits of descriptors: it has yet to check, ring, arm or look */
    const char *broken;       /* the rule that its last step broke, or that its next step breaks */
};

/* A process after some steps of a call: which one that is, the result of the last step, and the next step. Node 0 is
 * after all calls. */
struct node {
    struct step step;
    struct place place;
    uint64_t result;
    uint32_t before, child, sibling;
    int process, call;
};

static struct node *nodes;
static uint32_t node_count, node_room;
static uint32_t first_nodes[PROCESSES][CALLS + 1];

static vahepito_queue queue;
static union {
    queue_part part;
    char bytes[sizeof(queue_part) + (1 + GROUPS) * sizeof(own_handle)];
} one;
static uint64_t results[LONGEST];
static int result_count, result_at, tries;
static bool was_refused; /* memory, since the last step */
static struct step next_step;
static jmp_buf at_next_step;

static uint64_t result_of(struct step step) {
    if (result_at < result_count) return was_refused = false, results[result_at++];
    next_step = step;
    longjmp(at_next_step, 1);
}

/* LINES if it is none of a model's lines. */
static int line_of(const void *place) {
    const call_line *const line = place;
    if (line == &queue.senders) return 0;
    if (place == &queue.served.ended) return SERVED;
    return line >= queue.receivers && line < queue.receivers + GROUPS ? 1 + (int)(line - queue.receivers) : LINES;
}

/* LINES if a place is in no descriptor. */
static int bell_of(const void *place) {
    const size_t at = (size_t)((const char *)place - (const char *)queue.bells) / sizeof *queue.bells;
    return at < LINES ? (int)at : LINES;
}

/* Which group has its mark here: 0 is the mark that any has; LINES if this is no such mark. */
static int left_of(const void *place) {
    const bool *const mark = place;
    if (mark == &queue.has_bells) return 0;
    return mark >= queue.has_left && mark < queue.has_left + GROUPS ? 1 + (int)(mark - queue.has_left) : LINES;
}

static uint64_t model_served_time(void) { return model->bound ? 0 : UINT64_MAX; }

/* Each seat is free, and the row is not narrow. */
static uint64_t model_load(const void *place) {
    const int line = line_of(place);
    if (model->bound && place == &queue.served.waiting) return result_of((struct step){LOAD_WAITING, 0, 0, 0, false});
    if (model->bound && place == &queue.served.ended) return result_of((struct step){LOAD_ENDED, 0, 0, 0, false});
    if (place == &queue.is_closed) return result_of((struct step){LOOK_CLOSED, 0, 0, 0, false});
    if (place == &queue.is_closing) return result_of((struct step){LOOK_CLOSING, 0, 0, 0, false});
    if (place == &queue.special) return model->looks ? WAS_FULL : 0;
    const int left = left_of(place);
    if (left == 0 && (model->bells != 0 || !has_leaves)) return model->bells != 0;
    if (left < LINES) return result_of((struct step){LOAD_LEFT, left, 0, 0, false});
    const int bell = bell_of(place);
    if (bell < LINES && place == &queue.bells[bell].place) return (uint64_t)queue.bells[bell].place;
    if (bell < LINES) return result_of((struct step){LOAD_ARMED, bell, 0, 0, false});
    return line >= LINES ? 0 : result_of((struct step){LOAD, line, 0, 0, false});
}

static uint64_t model_add(const void *place, uint64_t by) {
    if (place == &queue.served.ended) return result_of((struct step){ADD_ENDED, 0, by, 0, false});
    return result_of((struct step){ADD, line_of(place), by, 0, false});
}

static bool model_exchange(uint64_t *place, uint64_t *old, uint64_t new) {
    if (place == &queue.seats[0].is_taken) return model_swap((uint32_t *)place, (uint32_t)new) == 0;
    const uint64_t found = result_of((struct step){EXCHANGE, line_of(place), *old, new, false});
    const bool is_same = found == *old;
    *old = found;
    return is_same;
}

/* Of a seat, of a descriptor, or of the line of calls that wait for their answer. */
static uint32_t model_swap(uint32_t *place, uint32_t value) {
    const uint32_t before = *place;
    if (bell_of(place) < LINES) return (uint32_t)result_of((struct step){SWAP_ARMED, bell_of(place), value, 0, false});
    if (place == &queue.served.waiting) return (uint32_t)result_of((struct step){SWAP_WAITING, 0, value, 0, false});
    if (model->bound) (void)result_of((struct step){SEAT, 0, 0, 0, false});
    *place = value;
    return before;
}

/* Any other store is of a seat, or of the hint that there was no room. */
static void model_store(const void *place, uint64_t value) {
    if (place == &queue.is_closed) (void)result_of((struct step){MARK_CLOSED, 0, 0, 0, false});
    if (place == &queue.is_closing) (void)result_of((struct step){MARK_CLOSING, 0, 0, 0, false});
    if (left_of(place) < LINES) (void)result_of((struct step){MARK_LEFT, left_of(place), 0, 0, false});
    if (place == &queue.seats[0].is_taken) queue.seats[0].is_taken = (uintptr_t)value;
}

static int model_lock(void) { return (int)result_of((struct step){LOCK, 0, 0, 0, false}); }
static int model_unlock(void) { return (int)result_of((struct step){UNLOCK, 0, 0, 0, false}); }

static void model_poll(int bell) { (void)result_of((struct step){POLL, bell, 0, 0, false}); }

/* A futex, or the read or the write of a descriptor, whose number is that of its group. */
long model_futex(long number, ...) {
    va_list rest;
    va_start(rest, number);
    if (number == SYS_read || number == SYS_write) {
        const int bell = va_arg(rest, int);
        va_end(rest);
        return (long)result_of((struct step){number == SYS_read ? DRAIN : RING, bell, 0, 0, false});
    }
    const void *place = va_arg(rest, void *);
    const int operation = va_arg(rest, int) & ~FUTEX_PRIVATE_FLAG, value = va_arg(rest, int);
    const bool has_time = va_arg(rest, void *) != NULL;
    va_end(rest);
    const enum kind kind = operation == FUTEX_WAKE ? WAKE : SLEEP;
    errno = (int)result_of((struct step){kind, line_of(place), (uint64_t)value, 0, has_time});
    return errno ? -1 : 0;
}

/* The library. */
static bool is_exhausted;

uint32_t vahepito_try_send_words(vahepito_handle *sender, const uint64_t *words, size_t count, uint64_t *place,
                                 uint32_t *served) {
    (void)sender, (void)words, (void)count, (void)served;
    *place = 0;
    if (is_exhausted && tries++ > 1) return VAHEPITO_WORN;
    if (model->bound) (void)result_of((struct step){COMBINE, 0, 0, 0, false});
    if (model->bound) return (uint32_t)result_of((struct step){TURN_COMBINED, 0, 0, 0, false});
    return (uint32_t)result_of((struct step){TRY_SEND, 0, 0, 0, false});
}

uint32_t vahepito_try_send(vahepito_handle *sender, uint64_t word, uint64_t *place, uint32_t *served) {
    return vahepito_try_send_words(sender, &word, 1, place, served);
}

uint32_t vahepito_accepted(vahepito_handle *pass, uint64_t *count) {
    (void)pass;
    *count = result_of((struct step){LOOK_SENT, 0, 0, 0, false});
    return VAHEPITO_DONE;
}

uint32_t vahepito_taken(vahepito_handle *pass, uint32_t group, uint64_t *count) {
    (void)pass;
    *count = result_of((struct step){LOOK_TAKEN, (int)group, 0, 0, false});
    return VAHEPITO_DONE;
}

/* Memory for a further queue is refused. */
uint32_t vahepito_open_words(const vahepito_config *config, uint32_t groups, uint32_t words, vahepito_handle *senders,
                             size_t sender_count, vahepito_handle *receivers, size_t receiver_count) {
    (void)config, (void)groups, (void)words, (void)senders, (void)sender_count, (void)receivers, (void)receiver_count;
    was_refused = true;
    return VAHEPITO_NO_MEMORY;
}

uint32_t vahepito_drop(vahepito_handle *pass) { return (void)pass, VAHEPITO_DONE; }

uint32_t vahepito_version(void) { return VAHEPITO_VERSION; }
void vahepito_sizes(size_t *config, size_t *pass, size_t *item, size_t *words_item) {
    (void)config, (void)pass, (void)item, (void)words_item;
}

/* The handles are of the sender, and then of a receiver of each group. */
static int group_of(const vahepito_handle *receiver) {
    return (int)((const own_handle *)(const void *)receiver - one.part.handles);
}

uint32_t vahepito_try_take_words(vahepito_handle *receiver, vahepito_item *item, uint64_t *total, uint32_t *served) {
    const int group = group_of(receiver);
    (void)item, (void)served;
    *total = 0;
    if (model->bound) (void)result_of((struct step){COMBINE, group, 0, 0, false});
    if (model->bound) return (uint32_t)result_of((struct step){TURN_COMBINED, group, 0, 0, false});
    return (uint32_t)result_of((struct step){TRY_TAKE, group, 0, 0, false});
}

uint32_t vahepito_try_take(vahepito_handle *receiver, vahepito_word_item *item, uint64_t *total, uint32_t *served) {
    memset(item, 0, sizeof *item);
    return vahepito_try_take_words(receiver, NULL, total, served);
}

uint32_t vahepito_begin_close(vahepito_handle *sender) { return (void)sender, VAHEPITO_BEGUN; }

uint32_t vahepito_turn_close(vahepito_handle *sender, uint64_t *total, uint32_t *served) {
    (void)sender, (void)total, (void)served;
    return (uint32_t)result_of((struct step){CLOSE, 0, 0, 0, false});
}

uint32_t vahepito_turn_send(vahepito_handle *sender, uint64_t *place, uint32_t *served) {
    (void)sender, (void)place, (void)served;
    return (uint32_t)result_of((struct step){model->bound ? TURN_COMBINED : TURN_SEND, 0, 0, 0, false});
}

uint32_t vahepito_turn_take_words(vahepito_handle *receiver, vahepito_item *item, uint64_t *total, uint32_t *served) {
    (void)item, (void)total, (void)served;
    return (uint32_t)result_of(
        (struct step){model->bound ? TURN_COMBINED : TURN_TAKE, group_of(receiver), 0, 0, false});
}

/* The queue as each call finds it: what is a model's state isn't in it. */
static void reset(void) {
    memset(&queue, 0, offsetof(vahepito_queue, seats) + sizeof *queue.seats);
    queue.config.capacity = (uint32_t)model->capacity;
    queue.groups = (uint32_t)model->groups;
    queue.words = queue.places = 1;
    queue.stride = sizeof(own_handle);
    queue.has_bound = true;
    queue.first = queue.last = queue.at[0] = queue.at[1] = &one.part;
    for (int bell = 0; bell < LINES; bell++) queue.bells[bell].place = model->bells >> bell & 1 ? bell : -1;
    thread_offset = sizeof *queue.seats;
}

/* The code of the call. */
static uint32_t make_call(char call) {
    static const struct timespec some_time = {(time_t)1 << 40, 0}; /* it has not come */
    static const uint64_t words[2] = {1, 2};
    vahepito_item items[2];
    uint32_t code;
    reset();
    const uint32_t group = 1 + (call == 'u' || call == 'U' || call == 'q' || call == 'y');
    is_exhausted = call == 'w';
    tries = 0;
    switch (call) {
    case 's': case 'w': return vahepito_send(&queue, 1, NULL);
    case 'S': return vahepito_send_until(&queue, 1, &some_time, NULL);
    case 'm': return vahepito_send_now(&queue, 1, NULL);
    case 'b': return vahepito_send_many(&queue, words, 2, NULL, NULL);
    case 'e': return notify_items(&queue, false), attempt_send(&(send_request){&queue, words, 1, 0, 0});
    case 't': case 'u': return vahepito_take(&queue, group, NULL, NULL);
    case 'T': case 'U': return vahepito_take_until(&queue, group, NULL, &some_time, NULL);
    case 'n': return vahepito_take_now(&queue, 1, NULL, NULL);
    case 'k': return vahepito_take_many(&queue, 1, items, 2, NULL, NULL, NULL);
    case 'c': return vahepito_close(&queue, NULL);
    case 'x': case 'y': return vahepito_leave(&queue, group);
    case 'r':
        do model_poll(0), code = vahepito_send_now(&queue, 1, NULL);
        while (code == VAHEPITO_FULL);
        return code;
    case 'p': case 'q':
        do model_poll((int)group), code = vahepito_take_now(&queue, group, NULL, NULL);
        while (code == VAHEPITO_EMPTY);
        return code;
    default: abort();
    }
}

/* The step that comes after this node. */
static struct step step_after(uint32_t node) {
    result_at = result_count = 0;
    was_refused = false;
    for (uint32_t at = node; nodes[at].before != 0; at = nodes[at].before) result_count++;
    if (result_count > LONGEST) abort();
    for (uint32_t at = node, k = (uint32_t)result_count; nodes[at].before != 0; at = nodes[at].before)
        results[--k] = nodes[at].result;
    if (setjmp(at_next_step)) return next_step;
    return (struct step){DONE, 0, make_call(model->calls[nodes[node].process][nodes[node].call]), 0, false};
}

/* ---- the rules of a line and of a descriptor */

static void finds(struct place *it, int side, bool something) {
    if (it->where == LOOKING || it->where == PARKING) it->where = something ? LEAVING : PARKING;
    if (it->where == RETRYING) it->where = OUT;
    if (it->watching >> side & 1) it->unchecked |= (uint8_t)(something << side);
    it->watching &= (uint8_t)~(1u << side);
}

/* A try of this side has this code. A send makes an item for each group, and a take makes room for the senders. */
static void tries_with(struct place *it, int side, uint64_t code) {
    if (code == VAHEPITO_WAITING || code == VAHEPITO_SPENT) return;
    finds(it, side, code != VAHEPITO_FULL && code != VAHEPITO_EMPTY);
    for (int line = 0; line <= model->groups; line++) {
        if (code != (line == 0 ? VAHEPITO_GOT : VAHEPITO_ACCEPTED)) continue;
        it->owed[line]++;
        it->unchecked |= model->bells & (uint8_t)(1u << line);
    }
}

/* The counts of a line have changed: by a notification, or as a call leaves, uses its notification or gives up. */
static void changes(struct place *it, struct step step) {
    const uint64_t waiting = step.value >> 32, left = step.next >> 32;
    const uint32_t notified = (uint32_t)step.value, now = (uint32_t)step.next;
    const bool uses = left == waiting && now + 1 == notified, gives = left + 1 == waiting && now == notified;
    const bool is_own = it->line == step.line;
    uint8_t *const owed = &it->owed[step.line];
    if (left < waiting && now - notified == waiting - left) {
        if (left > 0 && waiting - left < *owed) it->broken = "a notification takes out fewer calls than are owed";
        if (left > 0 && it->closing >> step.line & 1) it->broken = "a close doesn't notify all";
        if (is_own) it->is_refused = false;
        *owed = 0, it->closing &= (uint8_t)~(1u << step.line), it->wakes += (uint8_t)(waiting - left);
    } else if (is_own && it->where == LEAVING && (waiting > 0 ? gives : uses)) {
        it->where = OUT;
    } else if (is_own && it->where == PARKING && (notified > 0 ? uses : gives)) {
        it->where = notified > 0 ? RETRYING : OUT;
    } else {
        it->broken = "the counts of a line change by no rule";
    }
}

/* Where a call is after this step with this result. An exchange has succeeded: one that fails is a load. */
static struct place after_step(struct place it, struct step step, uint64_t result) {
    const uint8_t bit = (uint8_t)(1u << step.line % 8);
    it.broken = NULL;
    switch (step.kind) {
    case TRY_SEND: case TURN_SEND: tries_with(&it, 0, result); break;
    case TRY_TAKE: case TURN_TAKE: case TURN_COMBINED: tries_with(&it, step.line, result); break;
    case LOOK_CLOSED: finds(&it, 0, result != 0); break;
    /* The look at the counts has found no room; or a close is under way, and the call tries. */
    case LOOK_CLOSING:
        if (result == 0) finds(&it, 0, false);
        break;
    case CLOSE: case MARK_CLOSED:
        it.closing = (uint8_t)((2u << model->groups) - 1), it.unchecked |= model->bells;
        break;
    case ADD:
        if (it.where != OUT) it.broken = "a call that was notified doesn't try";
        it.where = LOOKING, it.line = step.line;
        break;
    case LOAD:
        if (result >= ONE_WAITING) break;
        it.owed[step.line] = 0, it.closing &= (uint8_t)~bit;
        if (it.line == step.line) it.is_refused = false;
        break;
    case EXCHANGE: changes(&it, step); break;
    case WAKE:
        if (step.line == SERVED) break;
        if (step.value < it.wakes) it.broken = "fewer calls are woken than are notified";
        it.wakes = 0;
        break;
    case DRAIN:
        if (it.watching & bit) it.broken = "a descriptor is drained after it is armed";
        it.arming |= bit;
        break;
    case RING: it.ringing &= (uint8_t)~bit; break;
    case LOAD_ARMED:
        if (result == 0) it.unchecked &= (uint8_t)~bit;
        break;
    case SWAP_ARMED:
        if (step.value == 0) {
            it.unchecked &= (uint8_t)~bit, it.ringing |= (uint8_t)(result << step.line);
        } else {
            if (!(it.arming & bit)) it.broken = "a descriptor is armed that isn't drained";
            it.arming &= (uint8_t)~bit, it.watching |= bit;
        }
        break;
    default: break;
    }
    return it;
}

/* Before this step. A call that was in line, and is refused memory, has its notification still. */
static struct place before_step(struct place it, struct step step) {
    const bool is_parking = it.where == PARKING && it.line == step.line;
    if (was_refused && it.line >= 0) {
        it.where = it.where == LOOKING || it.where == PARKING ? LEAVING : OUT;
        it.is_refused = true;
    }
    if (step.kind == SLEEP && step.line != SERVED && !is_parking) it.broken = "a call sleeps without a look";
    if (step.kind != DONE || it.broken) return it;
    for (int line = 0; line < LINES; line++)
        if (it.owed[line] > 0) it.broken = "a call ends that made something and doesn't notify";
    if (it.closing) it.broken = "a close doesn't notify all";
    if (it.is_refused) it.broken = "a call that is refused doesn't pass on its notification";
    if (it.wakes > 0) it.broken = "fewer calls are woken than are notified";
    if (it.where == RETRYING) it.broken = "a call that was notified doesn't try";
    else if (it.where != OUT) it.broken = "a call ends in a line";
    if (it.unchecked) it.broken = "a call ends that made or found something, and doesn't check a descriptor";
    if (it.ringing) it.broken = "a descriptor is disarmed and isn't rung";
    if (it.arming) it.broken = "a descriptor is drained and isn't armed";
    if (it.watching) it.broken = "a descriptor is armed and no look follows";
    return it;
}

static uint32_t add_node(int process, int call, uint32_t before, uint64_t result) {
    if (node_count == node_room) {
        node_room = node_room ? 2 * node_room : 1024;
        nodes = realloc(nodes, node_room * sizeof *nodes);
        if (!nodes) abort();
    }
    const uint32_t node = node_count++;
    struct place place = {.line = -1};
    nodes[node] = (struct node){.result = result, .before = before, .process = process, .call = call};
    if (node == 0) return node;
    if (before != 0) place = after_step(nodes[before].place, nodes[before].step, result);
    nodes[node].step = step_after(node);
    nodes[node].place = before_step(place, nodes[node].step);
    return node;
}

/* The node after a step with this result; if the call is over then, with this code, the first one of the next call. */
static uint32_t node_after(uint32_t node, uint64_t result, uint64_t *code) {
    uint32_t child = nodes[node].child;
    const int process = nodes[node].process, call = nodes[node].call;
    while (child != 0 && nodes[child].result != result) child = nodes[child].sibling;
    if (child == 0) {
        child = add_node(process, call, node, result);
        nodes[child].sibling = nodes[node].child;
        nodes[node].child = child;
    }
    if (nodes[child].place.broken) breaks(nodes[child].place.broken);
    if (nodes[child].step.kind != DONE) return child;
    *code = nodes[child].step.value;
    return first_nodes[process][call + 1];
}

/* ---- states */

enum sleep { AWAKE, ASLEEP, WOKEN };

/* A call in a chain: it waits, it has to serve, or it has this code and more. */
enum { NO_CALL, WAITS, SERVES, ANSWERED };

/* A store that is in no other process's sight: what a call has. */
struct store {
    uint8_t process, has;
};

struct state {
    uint64_t counts[LINES];
    uint32_t nodes[PROCESSES];
    uint8_t sleeps[PROCESSES], woken_for_nothing[PROCESSES];
    uint8_t sent, taken[GROUPS], closed, is_marked, is_closing;
    bool is_unanswered; /* a call returned before its answer */
    uint8_t has_lock; /* which process, from 1 */
    /* What the call of each process has; and of each side, in order, the processes, from 1, whose calls aren't
     * served. */
    uint8_t has[PROCESSES], chains[1 + GROUPS][PROCESSES];
    uint8_t waiting, ended; /* of the line of calls that wait for their answer */
    struct store buffers[PROCESSES][STORES];
    uint8_t readable, armed; /* bits of descriptors */
    uint8_t left; /* bits of groups; the first one says that some group has left */
    uint8_t padding[3];
};

_Static_assert(sizeof(struct state) % 8 == 0, "its hash is of words");

static struct state *states, *left;
static size_t state_count, state_room, left_count, left_room;
static uint32_t *places;

static uint64_t hash_of(const struct state *state) {
    uint64_t hash = 0;
    uint64_t words[sizeof *state / 8];
    memcpy(words, state, sizeof words);
    for (size_t at = 0; at < sizeof *state / 8; at++)
        hash = (hash ^ words[at] ^ hash >> 32) * UINT64_C(0x9e3779b97f4a7c15);
    return hash ^ hash >> 29;
}

/* Adds a state to those that were reached, and to those from which the search continues, if it is new. */
static void reach(const struct state *state) {
    if (2 * state_count >= state_room) {
        state_room = state_room ? 2 * state_room : 1 << 16;
        states = realloc(states, state_room / 2 * sizeof *states);
        free(places);
        places = calloc(state_room, sizeof *places);
        if (!states || !places) abort();
        for (size_t at = 0; at < state_count; at++) {
            uint64_t place = hash_of(&states[at]) % state_room;
            while (places[place] != 0) place = (place + 1) % state_room;
            places[place] = (uint32_t)at + 1;
        }
    }
    uint64_t place = hash_of(state) % state_room;
    for (; places[place] != 0; place = (place + 1) % state_room)
        if (memcmp(&states[places[place] - 1], state, sizeof *state) == 0) return;
    states[state_count++] = *state;
    places[place] = (uint32_t)state_count;
    if (left_count == left_room) {
        left_room = left_room ? 2 * left_room : 1024;
        left = realloc(left, left_room * sizeof *left);
        if (!left) abort();
    }
    left[left_count++] = *state;
}

static int room(const struct state *state) {
    int least = state->taken[0];
    if (model->groups == 2 && state->taken[1] < least) least = state->taken[1];
    return least + model->capacity - state->sent;
}

static uint32_t try_send(struct state *state) {
    if (state->closed) return VAHEPITO_CLOSED;
    if (state->sent == model->life) return VAHEPITO_SPENT;
    if (room(state) == 0) return VAHEPITO_FULL;
    state->sent++;
    return VAHEPITO_ACCEPTED;
}

static uint32_t try_take(struct state *state, int group) {
    if (state->taken[group - 1] == state->sent) return state->closed ? VAHEPITO_ENDED : VAHEPITO_EMPTY;
    state->taken[group - 1]++;
    return VAHEPITO_GOT;
}

static bool is_buffered(const struct state *state, int process) { return state->buffers[process][0].has != NO_CALL; }

/* The oldest store of this process leaves its buffer. */
static void write_first(struct state *state, int process) {
    struct store *const buffer = state->buffers[process];
    state->has[buffer->process] = buffer->has;
    memmove(buffer, buffer + 1, (STORES - 1) * sizeof *buffer);
    buffer[STORES - 1] = (struct store){0, NO_CALL};
}

static void store(struct state *state, int process, uint8_t other, uint8_t has) {
    struct store *place = state->buffers[process];
    while (place->has != NO_CALL) place++;
    *place = (struct store){other, has};
}

/* The call of this process gets its place in the chain of this side. The first one has to serve. */
static void combine(struct state *state, int process, int side) {
    uint8_t *place = state->chains[side];
    state->has[process] = *place == 0 ? SERVES : WAITS;
    while (*place != 0) place++;
    *place = (uint8_t)(process + 1);
}

/* The call of this process serves itself and those behind it, and hands over. Its own code is returned. */
static uint32_t serve(struct state *state, int process, int side) {
    uint8_t *const chain = state->chains[side];
    uint32_t own = 0;
    for (int served = 0; chain[0] != 0 && served < model->bound; served++) {
        const int other = chain[0] - 1;
        const uint32_t code = side == 0 ? try_send(state) : try_take(state, side);
        memmove(chain, chain + 1, PROCESSES - 1);
        chain[PROCESSES - 1] = 0;
        if (other == process) own = code, state->has[process] = NO_CALL;
        else store(state, process, (uint8_t)other, (uint8_t)(ANSWERED + code));
    }
    if (chain[0] != 0) store(state, process, (uint8_t)(chain[0] - 1), SERVES);
    return own;
}

static uint32_t turn(struct state *state, int process, int side) {
    const uint8_t has = state->has[process];
    if (has == WAITS) return VAHEPITO_WAITING;
    if (has == SERVES) return serve(state, process, side);
    state->has[process] = NO_CALL;
    return has - ANSWERED;
}

static void advance(struct state state, int process, uint64_t result) {
    uint64_t code = VAHEPITO_DONE;
    state.sleeps[process] = AWAKE;
    state.nodes[process] = node_after(state.nodes[process], result, &code);
    state.is_unanswered |= code == VAHEPITO_WAITING;
    reach(&state);
}

/* The load, before this node, of the value that its exchange expects. */
static uint32_t load_before(uint32_t node) {
    do node = nodes[node].before;
    while (nodes[node].step.kind != LOAD);
    return node;
}

static bool sleeps_in(const struct state *state, int process, int line) {
    return state->sleeps[process] == ASLEEP && nodes[state->nodes[process]].step.line == line;
}

/* The states after one step of this process. */
static void search_after(const struct state *state, int process) {
    const struct step step = nodes[state->nodes[process]].step;
    struct state next = *state;
    uint64_t *const counts = &next.counts[step.line % LINES];
    const uint64_t before = step.line == SERVED ? state->ended : *counts;
    const uint8_t bit = (uint8_t)(1u << step.line % 8);
    const bool loads = step.kind == LOAD || step.kind == LOAD_WAITING || step.kind == LOAD_ENDED;
    const bool is_plain = loads || step.kind == DONE || step.kind == TURN_COMBINED;
    if (is_buffered(state, process)) {
        write_first(&next, process);
        reach(&next);
        if (!is_plain) return;
        next = *state;
    }
    switch (step.kind) {
    case DONE: break;
    case SEAT: advance(next, process, 0); break;
    case COMBINE: combine(&next, process, step.line), advance(next, process, 0); break;
    case TURN_COMBINED: {
        const uint32_t code = turn(&next, process, step.line);
        advance(next, process, code);
        break;
    }
    case LOAD_WAITING: advance(next, process, state->waiting); break;
    case LOAD_ENDED: advance(next, process, state->ended); break;
    case SWAP_WAITING: next.waiting = (uint8_t)step.value, advance(next, process, 0); break;
    case ADD_ENDED: next.ended += (uint8_t)step.value, advance(next, process, 0); break;
    case LOAD: advance(next, process, before); break;
    case ADD: *counts += step.value, advance(next, process, 0); break;
    case EXCHANGE:
        /* One that fails has loaded the value that it found. */
        if (before != step.value) next.nodes[process] = load_before(next.nodes[process]);
        else *counts = step.next;
        advance(next, process, before);
        break;
    case SLEEP:
        if (state->sleeps[process] == ASLEEP) {
            if (step.has_time && step.line != SERVED) advance(next, process, ETIMEDOUT);
            if (state->woken_for_nothing[process] < model->wakes_for_nothing)
                next.woken_for_nothing[process]++, advance(next, process, 0);
        } else if (state->sleeps[process] == WOKEN || (uint32_t)before != (uint32_t)step.value) {
            advance(next, process, 0);
        } else {
            if (step.line != SERVED && (uint32_t)before != 0) breaks("a call sleeps beside a notification");
            next.sleeps[process] = ASLEEP;
            reach(&next);
        }
        break;
    case WAKE: {
        bool none = true;
        for (int other = 0; other < PROCESSES; other++) {
            if (!sleeps_in(state, other, step.line)) continue;
            none = false;
            if (step.value == 1) next = *state;
            next.sleeps[other] = WOKEN;
            if (step.value == 1) advance(next, process, 0);
        }
        if (none || step.value != 1) advance(next, process, 0);
        break;
    }
    case TRY_SEND:
    case TURN_SEND: {
        const uint32_t code = model->has_turns && step.kind == TRY_SEND ? VAHEPITO_WAITING : try_send(&next);
        advance(next, process, code);
        break;
    }
    case TRY_TAKE:
    case TURN_TAKE: {
        const uint32_t code = model->has_turns && step.kind == TRY_TAKE ? VAHEPITO_WAITING : try_take(&next, step.line);
        advance(next, process, code);
        break;
    }
    case LOOK_SENT: advance(next, process, state->sent); break;
    case LOOK_TAKEN: advance(next, process, state->taken[step.line - 1]); break;
    case LOOK_CLOSED: advance(next, process, state->is_marked); break;
    case MARK_CLOSED: next.is_marked = 1, advance(next, process, 0); break;
    case LOOK_CLOSING: advance(next, process, state->is_closing); break;
    case MARK_CLOSING: next.is_closing = 1, advance(next, process, 0); break;
    case LOCK:
        if (state->has_lock == 0) next.has_lock = (uint8_t)(process + 1), advance(next, process, 0);
        break;
    case UNLOCK: next.has_lock = 0, advance(next, process, 0); break;
    case CLOSE: next.closed = 1, advance(next, process, VAHEPITO_SHUT); break;
    case LOAD_LEFT: advance(next, process, state->left >> step.line & 1); break;
    case MARK_LEFT: next.left |= bit, advance(next, process, 0); break;
    case POLL:
        if (state->readable & bit) advance(next, process, 0);
        break;
    case DRAIN: next.readable &= (uint8_t)~bit, advance(next, process, 0); break;
    case RING: next.readable |= bit, advance(next, process, 0); break;
    case LOAD_ARMED: advance(next, process, state->armed >> step.line & 1); break;
    case SWAP_ARMED:
        next.armed = (uint8_t)(step.value ? state->armed | bit : state->armed & ~bit);
        advance(next, process, state->armed >> step.line & 1);
        break;
    }
}

/* How many things a call of this line, or at this descriptor, may take. */
static uint64_t things(const struct state *state, int line) {
    return (uint64_t)(line == 0 ? room(state) : state->sent - state->taken[line - 1]);
}

/* Whether the proof's statements of a line hold in this state (`Holds` in crates/cc_waits/proofs/Line.antt). */
static void check_line(const struct state *state, int line) {
    const uint64_t waiting = state->counts[line] >> 32, notified = (uint32_t)state->counts[line];
    uint64_t looks_or_leaves = 0, parking = 0, sleeping = 0, owed = 0, wakes = 0;
    bool is_closing = false;
    for (int process = 0; process < PROCESSES; process++) {
        const struct node *const node = &nodes[state->nodes[process]];
        const struct place *const place = &node->place;
        const bool is_there = place->line == line;
        looks_or_leaves += is_there && (place->where == LOOKING || place->where == LEAVING);
        parking += is_there && place->where == PARKING && state->sleeps[process] != ASLEEP;
        sleeping += is_there && place->where == PARKING && state->sleeps[process] == ASLEEP;
        owed += place->owed[line];
        owed += (uint64_t)(is_there && place->where == RETRYING) + (uint64_t)(is_there && place->is_refused);
        wakes += node->step.kind == WAKE && node->step.line == line ? place->wakes : 0;
        is_closing |= place->closing >> line & 1;
    }
    if (looks_or_leaves + parking + sleeping != waiting + notified)
        breaks("the counts aren't those of the calls in line");
    if (!is_closing && looks_or_leaves < waiting && things(state, line) > notified + owed)
        breaks("a thing is there that no thread owes");
    if (state->closed && !is_closing && waiting > looks_or_leaves) breaks("a call of a closed queue isn't notified");
    if (sleeping > 0 && notified > parking + wakes) breaks("a notification has no call that is awake or to be woken");
}

/* The same of a descriptor (`Holds` in crates/cc_waits/proofs/Bell.antt). */
static void check_bell(const struct state *state, int bell) {
    const bool is_readable = state->readable >> bell & 1;
    bool is_due = false, is_rung = false;
    for (int process = 0; process < PROCESSES; process++) {
        const struct place *const place = &nodes[state->nodes[process]].place;
        is_rung |= (place->ringing | place->arming) >> bell & 1;
        is_due |= (place->unchecked | place->watching) >> bell & 1;
    }
    if (!(state->armed >> bell & 1) && !is_readable && !is_rung) breaks("a descriptor is neither readable nor armed");
    const bool has_something = state->closed || things(state, bell) > 0;
    if (has_something && !is_readable && !is_rung && !is_due) breaks("a descriptor misses something");
}

/* Whether the items of groups that have left stay, or the queue isn't closed just when all have left: no model with
 * such groups has a close. */
static void check_left(const struct state *state) {
    bool have_all = true;
    for (int group = 1; group <= model->groups; group++) {
        const bool has_left = state->left >> group & 1;
        have_all = have_all && has_left;
        if (has_left && !state->closed && things(state, group) > 0) is_wrong("a group that has left keeps an item");
    }
    if (have_all && !state->closed) is_wrong("all groups have left, and the queue isn't closed");
    if (has_leaves && state->closed && !have_all) is_wrong("the queue is closed, and a group hasn't left");
}

/* Whether a rule is broken, or a call returned before its answer; or no process makes a step, though the try of a
 * process that sleeps, in a line or in a poll, would find something, or the counts of a line aren't the number of those
 * that sleep there, or PARKED is left. */
static void check_state(const struct state *state) {
    uint64_t sleeping[LINES] = {0};
    bool is_missed = false;
    if (state->is_unanswered) is_wrong("a call returns before its answer");
    for (int line = 0; line <= model->groups; line++) {
        check_line(state, line);
        if (model->bells >> line & 1) check_bell(state, line);
    }
    for (int process = 0; process < PROCESSES; process++) {
        const struct step *step = &nodes[state->nodes[process]].step;
        const bool is_readable = step->kind == POLL && state->readable >> step->line & 1;
        const bool sleeps = step->kind == POLL ? !is_readable : state->sleeps[process] == ASLEEP;
        if (is_buffered(state, process)) return;
        if (step->kind == DONE) continue;
        if (!sleeps) return;
        if (step->kind == SLEEP && step->line != SERVED) sleeping[step->line] += ONE_WAITING;
        if (step->line == SERVED) is_missed |= state->has[process] != WAITS;
        else is_missed |= state->closed || things(state, step->line) > 0;
    }
    if (is_missed) is_wrong("a wake-up is lost");
    check_left(state);
    if (memcmp(sleeping, state->counts, sizeof sleeping) != 0) is_wrong("the counts aren't those of the sleepers");
    if (state->waiting == PARKED) is_wrong("the line of calls that wait for their answer is left as PARKED");
}

/* Searches all states of a model. Returns whether one is wrong. */
static bool search(const struct model *it) {
    struct state start;
    memset(&start, 0, sizeof start);
    model = it;
    has_leaves = false;
    for (int process = 0; process < PROCESSES; process++) has_leaves |= strpbrk(it->calls[process], "xy") != NULL;
    fault = NULL;
    node_count = 0;
    state_count = left_count = 0;
    if (places) memset(places, 0, state_room * sizeof *places);
    memset(first_nodes, 0, sizeof first_nodes);
    add_node(0, 0, 0, 0);
    for (int process = 0; process < PROCESSES; process++) {
        for (int call = 0; it->calls[process][call]; call++) first_nodes[process][call] = add_node(process, call, 0, 0);
        start.nodes[process] = first_nodes[process][0];
    }
    start.waiting = it->bound ? WAS_USED : 0;
    start.readable = it->bells;
    reach(&start);
    while (left_count > 0 && !fault) {
        const struct state state = left[--left_count];
        check_state(&state);
        for (int process = 0; process < PROCESSES; process++) search_after(&state, process);
    }
    return fault != NULL;
}

/* By the number of their states: so most faults are found soon. */
static const struct model models[] = {
    {{"s", "s", "", ""}, 2, 1, 9, 1, false, false, 1, 0}, {{"s", "s", "", ""}, 2, 1, 9, 1, false, false, 2, 0},
    {{"mm", "m", "", ""}, 3, 1, 9, 0, false, false, 2, 0}, {{"p", "s", "", ""}, 1, 1, 9, 0, false, false, 0, 2},
    {{"mr", "n", "", ""}, 1, 1, 9, 0, false, false, 0, 1}, {{"t", "s", "", ""}, 1, 1, 9, 1, false, false, 0, 0},
    {{"p", "c", "", ""}, 1, 1, 9, 0, false, false, 0, 2}, {{"mr", "c", "", ""}, 1, 1, 9, 0, false, false, 0, 1},
    {{"mr", "t", "", ""}, 1, 1, 9, 0, false, true, 0, 1}, {{"T", "s", "s", ""}, 2, 1, 9, 1, false, false, 0, 0},
    {{"p", "s", "c", ""}, 1, 1, 9, 0, false, false, 0, 2}, {{"t", "c", "s", ""}, 1, 1, 9, 0, true, false, 0, 0},
    {{"ss", "x", "", ""}, 1, 1, 9, 0, false, false, 0, 0}, {{"t", "s", "y", ""}, 1, 2, 9, 0, false, false, 0, 0},
    {{"b", "y", "", ""}, 2, 2, 9, 0, false, false, 0, 0}, {{"x", "y", "s", ""}, 1, 2, 9, 0, false, false, 0, 0},
    {{"p", "n", "s", ""}, 1, 1, 9, 0, false, false, 0, 2}, {{"t", "u", "s", ""}, 1, 2, 9, 0, false, false, 0, 0},
    {{"p", "q", "s", ""}, 1, 2, 9, 0, false, false, 0, 6}, {{"p", "q", "c", ""}, 1, 2, 9, 0, false, false, 0, 6},
    {{"k", "s", "s", ""}, 2, 1, 9, 0, false, true, 0, 0}, {{"tt", "ss", "", ""}, 1, 1, 9, 1, false, false, 0, 0},
    {{"mr", "p", "c", ""}, 1, 1, 9, 0, false, false, 0, 3}, {{"mr", "t", "c", ""}, 1, 1, 9, 0, false, true, 0, 1},
    {{"p", "p", "s", "s"}, 2, 1, 9, 0, false, false, 0, 2}, {{"p", "q", "mr", ""}, 1, 2, 9, 0, false, true, 0, 7},
    {{"t", "t", "b", ""}, 2, 1, 9, 0, false, false, 0, 0}, {{"ms", "s", "s", "t"}, 1, 1, 1, 0, false, false, 0, 0},
    {{"tt", "s", "s", ""}, 1, 1, 9, 0, false, false, 0, 0}, {{"ms", "s", "c", ""}, 1, 1, 9, 0, false, false, 0, 0},
    {{"tt", "s", "s", ""}, 1, 1, 9, 0, true, false, 0, 0}, {{"t", "t", "ss", ""}, 2, 1, 9, 0, false, false, 0, 0},
    {{"tt", "s", "s", ""}, 1, 1, 9, 0, false, true, 0, 0}, {{"t", "T", "s", "n"}, 2, 1, 9, 0, false, false, 0, 0},
    {{"ms", "s", "c", ""}, 1, 1, 9, 0, false, true, 0, 0}, {{"t", "t", "sc", ""}, 2, 1, 9, 0, false, false, 0, 0},
    {{"c", "ss", "s", ""}, 1, 1, 9, 0, false, true, 0, 0}, {{"t", "T", "ss", ""}, 2, 1, 9, 0, false, false, 0, 0},
    {{"mr", "r", "tt", ""}, 1, 1, 9, 0, false, false, 0, 1}, {{"p", "t", "ss", ""}, 1, 1, 9, 0, false, false, 0, 2},
    {{"pp", "mr", "s", ""}, 1, 1, 9, 0, true, false, 0, 3}, {{"p", "u", "s", "c"}, 1, 2, 9, 0, false, false, 0, 2},
    {{"t", "t", "ss", ""}, 1, 1, 9, 0, true, false, 0, 0}, {{"m", "m", "m", ""}, 3, 1, 9, 0, false, false, 3, 0},
    {{"m", "m", "m", ""}, 3, 1, 9, 0, false, false, 1, 0}, {{"bs", "s", "k", ""}, 2, 1, 9, 0, false, false, 0, 0},
    {{"t", "ss", "y", ""}, 1, 2, 9, 0, false, false, 0, 0}, {{"t", "ss", "y", ""}, 1, 2, 9, 0, false, true, 0, 0},
    {{"x", "y", "ss", ""}, 1, 2, 9, 0, false, false, 0, 0}, {{"t", "b", "y", ""}, 1, 2, 9, 0, false, false, 0, 0},
    {{"k", "s", "b", ""}, 1, 1, 9, 0, false, false, 0, 0}, {{"t", "t", "b", "s"}, 3, 1, 9, 0, false, false, 0, 0},
    {{"tt", "w", "ss", ""}, 1, 1, 9, 0, false, false, 0, 0}, {{"t", "t", "s", "s"}, 2, 1, 9, 0, false, false, 0, 0},
    {{"t", "t", "c", "s"}, 1, 1, 9, 0, false, false, 0, 0}, {{"tc", "ss", "S", ""}, 1, 1, 9, 0, false, false, 0, 0},
    {{"k", "t", "b", ""}, 1, 1, 9, 0, false, false, 0, 0}, {{"tt", "S", "ss", ""}, 1, 1, 9, 0, false, false, 0, 0},
    {{"tt", "uu", "ss", ""}, 1, 2, 9, 0, false, false, 0, 0}, {{"t", "T", "b", ""}, 1, 1, 9, 0, false, true, 0, 0},
    {{"t", "U", "u", "s"}, 1, 2, 9, 0, false, false, 0, 0}, {{"tt", "u", "ss", ""}, 1, 2, 9, 1, false, false, 0, 0},
    {{"tt", "uu", "ss", ""}, 1, 2, 9, 0, false, true, 0, 0}, {{"c", "ss", "s", "t"}, 1, 1, 9, 0, false, false, 0, 0},
    {{"tt", "S", "ss", ""}, 1, 1, 9, 0, false, true, 0, 0}, {{"t", "T", "T", "s"}, 2, 1, 9, 0, false, false, 0, 0},
    {{"tt", "w", "s", "s"}, 1, 1, 9, 0, false, false, 0, 0},
};

int main(int count, char **words) {
    const char *const word = count > 1 ? words[1] : "";
    const bool faults = strcmp(word, "--faults") == 0, sizes = strcmp(word, "--sizes") == 0;
    const struct model early = {{"t", "e", "", ""}, 1, 1, 9, 0, false, false, 0, 0};
    bool found = false;
    if (faults && count > 2) wanted = words[2];
    has_rules = !faults || wanted;
    for (size_t at = 0; at < sizeof models / sizeof *models && !found; at++) {
        found = search(&models[at]);
        if (sizes || (found && !faults))
            fprintf(stderr, "%s %s %s %s: %zu states, %u nodes\n", model->calls[0], model->calls[1], model->calls[2],
                    model->calls[3], state_count, node_count);
    }
    if (found) fprintf(faults ? stdout : stderr, "%s\n", fault);
    if (faults || found) return found == faults ? 0 : 1;
    has_rules = false;
    if (!search(&early)) {
        fprintf(stderr, "a notification before its send isn't found\n");
        return 1;
    }
    printf("no wake-up is lost\n");
    return 0;
}
