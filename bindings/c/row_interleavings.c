/* The row of vahepito_queue.c is one queue: its code in every interleaving of small models.
 *
 * A process makes calls of vahepito.h, on a stack of its own. The code runs as it is. A state is the bytes of the
 * queue, of its parts and of the stacks, and the search visits all states that the processes reach. The proved library
 * is a model: a bounded queue with a close, whose calls take one step each. In some models a call is begun, takes
 * effect at any moment after that, and then is asked for its answer. The lock, the futex and memory are models too.
 * Memory may be refused for a further queue.
 *
 * This file is compiled twice. With SOURCE, the name of a file, it is the code, compiled as for the thread sanitizer:
 * so the code calls the functions __tsan_ below at each of its accesses. Without SOURCE it is the search.
 *
 * A process may be stopped before each atomic access, each lock and each call of the library or of the system. It isn't
 * stopped before a plain access or an unlock. So each plain access has to keep rules, and a state in which one is
 * broken is wrong: what changes is accessed plainly under the lock alone, or by the process that asked for the memory,
 * until its pointer is stored; what doesn't change isn't written, an atomic isn't accessed plainly, what is freed isn't
 * accessed, and a part is freed under the lock, when no process has accessed it plainly since the last step of that
 * process. Nor is a process stopped where that makes no difference: at bells, of which there are none; at the counts of
 * lines, if no call of the model waits; at loads, under the lock, of what is stored under the lock alone; and while all
 * seats are taken. A step that no other process hinders or sees comes first.
 *
 * The code keeps the rules of which crates/cc_row proves that a row by them is one queue (`threads_make_rows`), and
 * that nobody uses a queue that is freed (`left_queues_rest`). A call is made in a seat, at a queue that was the last
 * one, or its group's, at some moment since the seat was taken. A seat is given back without a call. A further queue is
 * appended if the last one was closed and the row wasn't; a group goes on to the next queue if a take of the group
 * found the end; who takes the lock finds the last queue of an open row open. A queue is freed once the senders and all
 * groups have gone on, and each seat was free since, or taken later, or said that its call is at another queue; then
 * that call is.
 *
 * Nor does it break the rules of a bound (`KeepBound` and `FindsFull` of crates/cc_row/specs/BoundThreads.antt, and
 * `GetsFull` of BoundedRuns.antt). A send begins at a queue to which all groups have come; or its thread has loaded
 * how many items the last queue had accepted, while no other sender had a call there, then found room for each group by
 * what the group had taken of the queue that it was at, and no sender began a call there since. A close begins where
 * all groups have come, or while no sender has a call. A send returns that there is no room, or parks, after a queue
 * had none, or after loads of the same kind that find none. It is a look of the same call each time, and begins before
 * a close of the row begins its call. No call returns Shut, Already, Closed or Ended before the store of `is_closed`.
 *
 * The answers are checked by an oracle that knows no row. It is one queue, first in, first out, whose calls take effect
 * at one moment between their begin and their return. With each state go all orders of the calls that explain the
 * answers so far. A length is, for the slowest group, what was accepted at one moment of the call less what was taken
 * at a later one.
 *
 * It ends with status 0 if in each state some order explains the answers and no rule is broken; and if, when no process
 * makes a step, each call has returned or sleeps and would find nothing, and vahepito_destroy gives what is left and
 * frees all memory. With --faults it ends with status 0 if this fails in some state, whatever the rules of a bound say;
 * with --faults RULE, if this one of them is broken: so the Makefile compiles it with each fault of row_faults.txt in
 * the code. With --few it has the small models alone, and with --sizes it prints how many states each has.
 *
 * Not searched are moments, descriptors, how a call parks that waits for a seat or its answer (interleavings.c does),
 * and orders of memory that are weaker than the order of the steps. On x86-64 the one store of the code that may be
 * pending gives a seat back. No other process sees more than that the seat is still taken. */
#undef _FORTIFY_SOURCE /* a jump to another stack is none to a caller */
#ifndef _DEFAULT_SOURCE
#define _DEFAULT_SOURCE
#endif
#include <errno.h>
#include <limits.h>
#include <pthread.h>
#include <setjmp.h>
#include <stdarg.h>
#include <stdbool.h>
#include <stdint.h>
#include <stdio.h>
#include <stdlib.h>
#include <string.h>
#include <unistd.h>

/* What lies at a place of the queue: numbers that stay; what is accessed under the lock alone; atomics that are stored
 * under the lock alone, and others; the counts of a line; a seat; and words that stay as they are here. */
enum field { FIXED, LOCKED, GUARDED, WORD, LINE, SEAT, QUIET };

/* The bytes of a queue; of it up to a seat before the first one, as seats are numbered from 1; and of a seat. */
struct layout {
    size_t size, seats, seat;
};

/* The words that are stored under the lock alone: whether the row is closed, the last queue, and the queue of each
 * group. */
enum guarded { CLOSED_WORD, LAST_WORD, AT_WORDS };

extern const struct layout code_layout;
enum field code_field(const void *queue, const void *place, uint32_t *number);
enum field code_part_field(size_t offset);
const void *code_queue_of(const void *queue, uint32_t side), *code_pass_of(const void *part);
uint32_t code_number_of(const void *part);
bool code_is_closed(const void *queue);
void code_begin(size_t seat, uint32_t threads);
size_t code_seat(void);
int model_lock(void), model_unlock(void), model_memory(void **memory, size_t alignment, size_t size);
void model_free(void *memory);

#ifdef SOURCE

#define pthread_mutex_lock(lock) ((void)(lock), model_lock())
#define pthread_mutex_unlock(lock) ((void)(lock), model_unlock())
#define posix_memalign model_memory
#define free model_free
#define syscall model_futex
/* Calls that wait for a seat or for their answer don't park here. */
#define VAHEPITO_SERVED_TIME UINT64_MAX
#define VAHEPITO_PROCESSORS 0
#define VAHEPITO_SPIN_TIME 0
#define VAHEPITO_AHEAD 0
#include SOURCE

#define LIES_IN(field) ((size_t)((const char *)place - (const char *)&queue->field) < sizeof queue->field)

const struct layout code_layout = {sizeof(vahepito_queue), offsetof(vahepito_queue, seats) - sizeof(call_seat),
                                   sizeof(call_seat)};

enum field code_field(const void *of, const void *place, uint32_t *number) {
    const vahepito_queue *const queue = of;
    *number = 0;
    if (LIES_IN(first) || LIES_IN(retired) || LIES_IN(spare) || LIES_IN(is_opening)) return LOCKED;
    if (LIES_IN(is_closed) || LIES_IN(is_closing)) return *number = CLOSED_WORD, GUARDED;
    if (LIES_IN(last)) return *number = LAST_WORD, GUARDED;
    if (LIES_IN(at)) return *number = AT_WORDS + (uint32_t)((queue_part *const *)place - queue->at), GUARDED;
    if (LIES_IN(special)) return WORD;
    if (LIES_IN(senders)) return LINE;
    if (LIES_IN(receivers)) return *number = 1 + (uint32_t)((const call_line *)place - queue->receivers), LINE;
    if (LIES_IN(seats)) return *number = 1 + (uint32_t)((const call_seat *)place - queue->seats), SEAT;
    return LIES_IN(bells) || LIES_IN(has_bells) || LIES_IN(served) || LIES_IN(pace) ? QUIET : FIXED;
}

enum field code_part_field(size_t offset) {
    const bool is_locked = offset == offsetof(queue_part, next) || offset == offsetof(queue_part, unseen);
    return is_locked ? LOCKED : FIXED;
}

/* The last queue of the row, or the queue that a group is at; a pass of a queue; the number of a queue; and whether the
 * row is closed. The search looks here, and not the code. */
#define UNSEEN __attribute__((no_sanitize_thread))
UNSEEN const void *code_queue_of(const void *of, uint32_t side) {
    const vahepito_queue *const queue = of;
    return side == 0 ? queue->last : queue->at[side - 1];
}
const void *code_pass_of(const void *part) { return &((const queue_part *)part)->handles[0].pass; }
UNSEEN uint32_t code_number_of(const void *part) { return (uint32_t)((const queue_part *)part)->number; }
UNSEEN bool code_is_closed(const void *queue) { return ((const vahepito_queue *)queue)->is_closed; }

/* Before each step of a process: its number, or 0 if it has none yet, and how many threads have one; and after a
 * step. */
void code_begin(size_t seat, uint32_t threads) { thread_offset = seat * sizeof(call_seat), thread_count = threads; }
size_t code_seat(void) { return thread_offset / sizeof(call_seat); }

#else

#define VAHEPITO_UNTOLD
#include "handles.h"

#include <linux/futex.h>
#include <ucontext.h>

enum {
    PROCESSES = 4, GROUPS = 2, PLACES = 2, CALLS = 4, ITEMS = 8, QUEUES = 10, BLOCKS = 12, ORDERS = 4096,
    LONGEST = 2000
};
enum { MEMORY = 16384, STACK = 65536, UNUSED = 1024, SIDES = 1 + GROUPS };
enum { MOST_BYTES = PROCESSES * STACK + MEMORY + (1 << 18) }; /* of a state */

/* The calls of each process, in order, with a space between two processes: a send or a take of group 1 or 2 that waits
 * (s, t, u), or that doesn't (m, n, o); two sends or takes at once (b, k) that don't wait; a close (c); a length (l);
 * whether the queue is closed (i). */
struct model {
    const char *calls;
    uint8_t capacity; /* 0: none */
    uint8_t room;     /* of each queue of the row, if the row has no bound */
    uint8_t groups, places, life, per_sender;
    uint8_t refusals; /* how often memory is refused at most */
    bool has_turns;   /* whether a call of the library takes two steps */
    uint8_t seats;    /* at which seat each process looks first */
    uint8_t words;
};

/* At one for each process, as far as there are as many; or it has none yet, as a new thread. */
enum { THERE, NEW };

static const struct model *model;
static char calls[PROCESSES][CALLS + 1]; /* of each process of the model */

/* ---- states */

/* What a step is before which a process is stopped. */
enum kind {
    ACCESS, LOOK_FOR_SEAT, TAKE_LOCK, SLEEP, ASLEEP, WAKE, REFUSED, TRY_SEND, TRY_TAKE, CLOSE, BEGIN, TURN, COUNT
};
enum status { READY, SLEEPS, RETURNED, OVER };

struct process {
    jmp_buf context;
    unsigned char *top; /* the end of its stack's bytes that are unused */
    uint32_t status, call, has_begun, was_refused;
    uint32_t kind, number; /* its next step: at a line, a field, a queue */
    uint32_t answer, seat;
    uint32_t reads; /* the blocks that it accessed plainly since its last step */
    /* Its look at the counts in this call: at which queue, with 1 added, and how many items the row had accepted by
     * then; whether the row was marked as closed; while no other sender had a call there or began one, for which groups
     * it found room; and whether there was none, by this look or by the queue. */
    uint8_t looks_at, accepted, is_late, is_alone, has_room, finds_full;
};

/* A call of the library that is begun, and its answer once it has taken effect. */
struct pending {
    uint8_t kind, item, is_done, code, value, got;
};

/* A queue of the library. */
struct raw {
    uint8_t capacity, life, per_sender, accepted, closed, shares, taken[GROUPS], begun[PLACES], items[ITEMS];
    uint8_t is_live[SIDES][PLACES], has_ended[GROUPS];
    struct pending pending[SIDES][PLACES];
};

/* Memory that the code asked for, and the process that did, from 1. It is shown once its pointer was stored. */
struct block {
    uint32_t start, size, is_free, is_shown, owner;
};

/* An order that explains the answers: the queue after it; and of each process nothing, or that its call isn't in the
 * order yet, or a part of the call, or its answer. */
struct order {
    uint8_t accepted, closed, taken[GROUPS], items[ITEMS];
    uint16_t calls[PROCESSES];
};

enum { NOT_YET = 1, IN_PART = 0x4000, ANSWERED = 0x8000 };

static struct {
    uint32_t block_count, used, raw_count, order_count;
    uint32_t lock; /* which process, from 1 */
    uint32_t refusals;
    /* Of each seat that is taken, from 1, with 1 added: the number of the last queue when it was taken, and of the
     * queue of each group. */
    uint8_t since[1 + PLACES][SIDES];
    uint8_t said[1 + PLACES]; /* and the number of the queue that its call is at, if it says so */
} world;

static struct process processes[PROCESSES];
static struct block blocks[BLOCKS];
static struct raw raws[QUEUES];
static struct order orders[ORDERS];
static int process_count;
static _Alignas(64) unsigned char memory[MEMORY];
static _Alignas(64) unsigned char stacks[PROCESSES][STACK];
static vahepito_queue *queue;

static jmp_buf scheduler;
static int current = -1;    /* the process that runs; or none: then nothing is a step */
static uint32_t choice;     /* of the step that is made */
static const char *fault;   /* what is wrong in this state */
static const char *wanted;  /* the one rule of a bound that counts then, or NULL */
static bool has_rules = true; /* else no rule of a bound counts */
static bool has_waits;      /* whether a call of the model waits */
static uint32_t seat_found; /* by a look of the last step, or 0 */

static _Noreturn void is_wrong(const char *what) {
    fault = what;
    _longjmp(scheduler, 1);
}

/* A rule of a bound is broken. */
static void breaks(const char *rule) {
    if (has_rules && (!wanted || strcmp(rule, wanted) == 0)) is_wrong(rule);
}

/* ---- a process */

static struct process *this_process(void) { return &processes[current]; }

static inline unsigned char *stack_now(void) {
    unsigned char *top;
#if defined(__x86_64__)
    __asm__ volatile("mov %%rsp, %0" : "=r"(top));
#elif defined(__aarch64__)
    __asm__ volatile("mov %0, sp" : "=r"(top));
#else
    top = (unsigned char *)__builtin_frame_address(0) - 256;
#endif
    return top;
}

/* Stops the process that runs, until the search goes on with it. */
static __attribute__((noinline)) void stop(void) {
    this_process()->top = stack_now();
    if (_setjmp(this_process()->context) == 0) _longjmp(scheduler, 1);
}

static void begin_in_orders(void) {
    for (uint32_t at = 0; at < world.order_count; at++) orders[at].calls[current] = NOT_YET;
}

/* Before a step. A call begins at its first one. */
static void step(enum kind kind, uint32_t number) {
    if (current < 0) return;
    struct process *const process = this_process();
    process->kind = kind, process->number = number;
    stop();
    process->reads = 0, seat_found = 0;
    if (!process->has_begun) begin_in_orders(), process->has_begun = 1;
}

/* ---- accesses to memory */

enum access { LOAD, STORE, UPDATE };

static bool is_locked(void) { return current < 0 || world.lock == (uint32_t)current + 1; }

/* The block in which a place lies; NULL if that is none of the queue's memory. */
static struct block *block_of(const void *place) {
    const size_t at = (size_t)((const unsigned char *)place - memory);
    if ((uintptr_t)place < 4096 || (uintptr_t)place >> 48 == 0xdddd) is_wrong("a wild pointer is used");
    if (at >= MEMORY) return NULL;
    for (uint32_t k = 0; k < world.block_count; k++)
        if (at - blocks[k].start < blocks[k].size) {
            if (blocks[k].is_free) is_wrong("freed memory is accessed");
            return &blocks[k];
        }
    is_wrong("no memory is accessed");
}

static enum field field_of(const struct block *block, const void *place, uint32_t *number) {
    *number = 0;
    if (block == blocks) return code_field(queue, place, number);
    return code_part_field((size_t)((const unsigned char *)place - memory) - block->start);
}

static void plain(const void *place, bool writes) {
    const struct block *const block = block_of(place);
    uint32_t number;
    if (!block || current < 0) return;
    const enum field field = field_of(block, place, &number);
    if (field == WORD || field == LINE || field == SEAT || field == QUIET) is_wrong("an atomic is accessed plainly");
    if (field == GUARDED && writes) is_wrong("an atomic is accessed plainly");
    if (!block->is_shown && block->owner == (uint32_t)current + 1) return;
    if (field != FIXED && !is_locked()) is_wrong("it is accessed without the lock");
    if (field == FIXED && writes && (block->is_shown || !is_locked())) is_wrong("what doesn't change is written");
    if (block != blocks && !is_locked()) this_process()->reads |= 1u << (block - blocks);
}

/* Before an atomic access. The load of a look for a seat and the exchange that takes the seat are one step: an exchange
 * that fails is as a load that found the seat taken. */
static void atomic(const void *place, enum access access, int order) {
    const struct block *const block = block_of(place);
    uint32_t number;
    if (!block || current < 0) return;
    const enum field field = field_of(block, place, &number);
    if (field == FIXED || field == LOCKED || block != blocks) is_wrong("it is no atomic");
    const bool stays = field == QUIET || (field == SEAT && number > model->places);
    if (stays && (access == STORE || (access == UPDATE && field == QUIET))) is_wrong("what stays as it is is written");
    if (stays) return;
    if ((field == LINE && !has_waits) || (field == GUARDED && access == LOAD && is_locked())) return;
    if (field == SEAT && access == UPDATE && number == seat_found) return;
    const bool looks = field == SEAT && access == LOAD && order == __ATOMIC_RELAXED;
    step(looks ? LOOK_FOR_SEAT : ACCESS, (uint32_t)((const unsigned char *)place - memory));
    if (looks && *(const uintptr_t *)place == 0) seat_found = number;
    if (field == GUARDED && access != LOAD && !is_locked()) is_wrong("it is stored without the lock");
}

/* ---- the rules of a row */

/* The number of the queue that a thread would find now: to send to, or to take from for a group. */
static uint32_t found_now(uint32_t side) { return code_number_of(code_queue_of(queue, side)); }

/* The number of a pass: by its queue, its side and its place there. */
static uint32_t number_in(const vahepito_handle *pass) { return (uint32_t)((uintptr_t)pass->at - 65536); }

static struct raw *raw_of_part(const void *part) { return &raws[number_in(code_pass_of(part)) / PLACES / SIDES]; }

static bool has_close(const struct raw *raw) {
    bool has = raw->closed != 0;
    for (uint32_t place = 0; place < PLACES; place++) has |= raw->pending[0][place].kind == CLOSE;
    return has;
}

static void seat_changed(uint32_t seat, bool is_taken) {
    world.said[seat] = 0;
    for (uint32_t side = 0; side < SIDES; side++) {
        world.since[seat][side] = is_taken && side <= model->groups ? (uint8_t)(found_now(side) + 1) : 0;
        for (uint32_t number = 0; number < world.raw_count; number++)
            if (raws[number].pending[side][seat - 1].kind != 0) is_wrong("a seat changes in its call");
    }
}

/* An atomic has changed, which had this value before. */
static void changed(const void *place, uint64_t before) {
    const struct block *const block = current < 0 ? NULL : block_of(place);
    uint32_t number;
    if (!block || block != blocks) return;
    const enum field field = code_field(queue, place, &number);
    if (field == SEAT && number <= model->places) {
        const uintptr_t at = *(const uintptr_t *)place;
        if ((at != 0) != (before != 0)) seat_changed(number, at != 0);
        else if (at != before) world.said[number] = (uint8_t)(code_number_of((const void *)at) + 1);
    } else if (field == GUARDED && number == LAST_WORD) {
        const void *const last = (const void *)(uintptr_t)before;
        if (code_is_closed(queue) || !raw_of_part(last)->closed)
            is_wrong("a queue is appended to one that isn't closed, or to a closed row");
        if (found_now(0) != code_number_of(last) + 1) is_wrong("the next number isn't that of the next queue");
    } else if (field == GUARDED && number >= AT_WORDS) {
        const void *const at = (const void *)(uintptr_t)before;
        const uint32_t group = number - AT_WORDS;
        if (!raw_of_part(at)->has_ended[group]) is_wrong("a group goes on from a queue that hasn't ended for it");
        if (code_number_of(at) >= found_now(0) || found_now(group + 1) != code_number_of(at) + 1)
            is_wrong("a group doesn't go on to the next queue");
    }
}

/* A process has taken the lock: so it may append, or close the row. */
static void check_open(void) {
    if (!code_is_closed(queue) && has_close(raw_of_part(code_queue_of(queue, 0))))
        is_wrong("the last queue of an open row is closed");
}

/* ---- the rules of a bound */

/* Of the queues of the row before this one, how many items they accepted. */
static uint32_t accepted_below(uint32_t number) {
    uint32_t count = 0;
    for (uint32_t k = 0; k < number; k++) count += raws[k].accepted;
    return count;
}

static uint32_t queue_now(uint32_t side) { return (uint32_t)(raw_of_part(code_queue_of(queue, side)) - raws); }

/* Whether some sender has a call at this queue. */
static bool has_sender(uint32_t number) {
    bool has = false;
    for (uint32_t place = 0; place < PLACES; place++) has |= raws[number].pending[0][place].kind != 0;
    return has;
}

/* Whether a close by a caller has begun its call at the last queue. */
static bool row_close_began(void) {
    return world.lock > 0 && calls[world.lock - 1][processes[world.lock - 1].call] == 'c' &&
           has_close(raw_of_part(code_queue_of(queue, 0)));
}

/* This process has loaded how many items this queue accepted, or how many a group has taken of it. */
static void looked(uint32_t number, uint32_t group) {
    struct process *const it = this_process();
    if (group == 0) {
        it->looks_at = (uint8_t)(number + 1), it->accepted = (uint8_t)accepted_below(number + 1);
        it->is_late = code_is_closed(queue) || row_close_began();
        it->is_alone = number == queue_now(0) && !has_sender(number), it->has_room = it->finds_full = 0;
        return;
    }
    const bool is_there = number == queue_now(group);
    const uint32_t taken = accepted_below(number) + raws[number].taken[group - 1];
    const bool has_room = it->accepted < taken + model->capacity;
    if (is_there && it->is_alone && has_room) it->has_room |= (uint8_t)(1u << (group - 1));
    if (it->looks_at > 0 && (is_there || number + 1u == it->looks_at) && !has_room) it->finds_full = 1;
}

static void forget_look(struct process *it) {
    it->looks_at = it->accepted = it->is_late = it->is_alone = it->has_room = it->finds_full = 0;
}

/* A sender begins a send or a close at this queue, which has no call of it yet. */
static void check_bound(uint32_t number, bool closes) {
    bool have_come = model->capacity == 0;
    if (current < 0) return;
    const struct process *const it = this_process();
    for (uint32_t group = 1; !have_come && number <= queue_now(group); group++) have_come = group == model->groups;
    if (closes) {
        if (!have_come && has_sender(number)) breaks("a close begins beside a send in a narrow row");
    } else if (!have_come && (!it->is_alone || it->looks_at != number + 1)) {
        breaks("a send begins in a narrow row without a look while it is alone");
    } else if (!have_come && it->has_room != (1u << model->groups) - 1) {
        breaks("a send begins in a narrow row without room for each group");
    }
    forget_look(this_process());
    for (int process = 0; process < process_count; process++)
        if (processes[process].looks_at == number + 1) processes[process].is_alone = processes[process].has_room = 0;
}

/* A call of this process relies on it that there was no room. */
static void check_full(void) {
    if (!this_process()->finds_full) breaks("there is no room by a wrong look");
    if (this_process()->is_late) breaks("a look that gets Full begins after a close");
}

/* A call of this process returns with this code. */
static void check_return(uint32_t code) {
    const bool says_shut = code == VAHEPITO_SHUT || code == VAHEPITO_ALREADY || code == VAHEPITO_CLOSED ||
                           code == VAHEPITO_ENDED;
    if (says_shut && !code_is_closed(queue)) breaks("a call says that the row is shut before the mark");
    if (code == VAHEPITO_FULL) check_full();
    forget_look(this_process());
}

/* A process makes a call by the pass of this side of this seat. */
static void check_found(const vahepito_handle *pass, uint32_t side, uint32_t seat) {
    const struct block *const block = block_of(pass);
    if (current < 0 || !block) return;
    const uint32_t number = code_number_of(&memory[block->start]);
    if (world.since[seat][side] == 0) is_wrong("a call is made without a seat");
    if (number + 1 < world.since[seat][side] || number > found_now(side))
        is_wrong("a call is made at a queue that wasn't found since the seat was taken");
    if (world.said[seat] != 0 && number + 1 != world.said[seat])
        is_wrong("a call is made at another queue than its seat says");
}

/* A part is freed that was shown. */
static void check_left(const void *part) {
    const uint32_t number = code_number_of(part);
    for (uint32_t side = 0; side <= model->groups; side++) {
        if (number >= found_now(side)) is_wrong("a queue is freed that isn't left");
        for (uint32_t seat = 1; seat <= model->places; seat++)
            if (world.since[seat][side] != 0 &&
                (world.said[seat] ? number + 1 == world.said[seat] : number + 1 >= world.since[seat][side]))
                is_wrong("a queue is freed that a call may have found");
    }
}

/* A part is shown once its pointer is stored. */
static void show(uint64_t pointer) {
    for (uint32_t k = 1; k < world.block_count; k++)
        if (pointer == (uintptr_t)&memory[blocks[k].start]) blocks[k].is_shown = 1;
}

/* What compilers call at plain accesses. */
#define PLAIN(prefix, size)                                                                              \
    void __tsan_##prefix##read##size(const void *place), __tsan_##prefix##write##size(const void *place); \
    void __tsan_##prefix##read##size(const void *place) { plain(place, false); }                         \
    void __tsan_##prefix##write##size(const void *place) { plain(place, true); }
PLAIN(, 1) PLAIN(, 2) PLAIN(, 4) PLAIN(, 8) PLAIN(, 16)
PLAIN(unaligned_, 2) PLAIN(unaligned_, 4) PLAIN(unaligned_, 8) PLAIN(unaligned_, 16)

void __tsan_read_range(const void *place, size_t size), __tsan_write_range(const void *place, size_t size);
void __tsan_read_range(const void *place, size_t size) { (void)size, plain(place, false); }
void __tsan_write_range(const void *place, size_t size) { (void)size, plain(place, true); }

void *__tsan_memcpy(void *to, const void *from, size_t size), *__tsan_memmove(void *to, const void *from, size_t size),
    *__tsan_memset(void *to, int byte, size_t size);
void *__tsan_memcpy(void *to, const void *from, size_t size) {
    return plain(to, true), plain(from, false), memcpy(to, from, size);
}
void *__tsan_memmove(void *to, const void *from, size_t size) {
    return plain(to, true), plain(from, false), memmove(to, from, size);
}
void *__tsan_memset(void *to, int byte, size_t size) { return plain(to, true), memset(to, byte, size); }

/* And at atomic ones. */
#define UPDATES(bits, name, operation)                                                                                \
    uint##bits##_t __tsan_atomic##bits##_##name(uint##bits##_t *place, uint##bits##_t value, int order);             \
    uint##bits##_t __tsan_atomic##bits##_##name(uint##bits##_t *place, uint##bits##_t value, int order) {            \
        atomic(place, UPDATE, order);                                                                                \
        const uint##bits##_t found = *place;                                                                         \
        *place = (uint##bits##_t)(operation);                                                                        \
        changed(place, found);                                                                                       \
        return found;                                                                                                \
    }

#define ATOMICS(bits) \
    uint##bits##_t __tsan_atomic##bits##_load(const uint##bits##_t *place, int order); \
    void __tsan_atomic##bits##_store(uint##bits##_t *place, uint##bits##_t value, int order); \
    int __tsan_atomic##bits##_compare_exchange_strong(uint##bits##_t *place, uint##bits##_t *old, \
                                                      uint##bits##_t value, int order, int other); \
    uint##bits##_t __tsan_atomic##bits##_compare_exchange_val(uint##bits##_t *place, uint##bits##_t old, \
                                                              uint##bits##_t value, int order, int other); \
    uint##bits##_t __tsan_atomic##bits##_load(const uint##bits##_t *place, int order) { \
        atomic(place, LOAD, order); \
        return *place; \
    } \
    void __tsan_atomic##bits##_store(uint##bits##_t *place, uint##bits##_t value, int order) { \
        atomic(place, STORE, order); \
        const uint##bits##_t before = *place; \
        *place = value; \
        show(value); \
        changed(place, before); \
    } \
    uint##bits##_t __tsan_atomic##bits##_compare_exchange_val(uint##bits##_t *place, uint##bits##_t old, \
                                                              uint##bits##_t value, int order, int other) { \
        (void)other; \
        atomic(place, UPDATE, order); \
        const uint##bits##_t found = *place; \
        if (found == old) *place = value, changed(place, found); \
        return found; \
    } \
    int __tsan_atomic##bits##_compare_exchange_strong(uint##bits##_t *place, uint##bits##_t *old, \
                                                      uint##bits##_t value, int order, int other) { \
        const uint##bits##_t found = __tsan_atomic##bits##_compare_exchange_val(place, *old, value, order, other); \
        const bool is_same = found == *old; \
        *old = found; \
        return is_same; \
    } \
    UPDATES(bits, exchange, value) \
    UPDATES(bits, fetch_add, found + value) \
    UPDATES(bits, fetch_sub, found - value) \
    UPDATES(bits, fetch_or, found | value) \
    UPDATES(bits, fetch_and, found & value)
ATOMICS(8) ATOMICS(32) ATOMICS(64)

void __tsan_init(void), __tsan_func_entry(void *from), __tsan_func_exit(void);
void __tsan_init(void) {}
void __tsan_func_entry(void *from) { (void)from; }
void __tsan_func_exit(void) {}

/* ---- the lock, memory, the futex */

int model_lock(void) {
    step(TAKE_LOCK, 0);
    if (current < 0) return 0;
    world.lock = (uint32_t)current + 1;
    check_open();
    return 0;
}

int model_unlock(void) {
    if (!is_locked()) is_wrong("a lock is given back that wasn't taken");
    world.lock = 0;
    return 0;
}

/* Whether memory is refused here: both may be. */
static bool is_refused(void) {
    if (current < 0 || world.refusals == 0) return false;
    step(REFUSED, 0);
    if (choice == 0) return false;
    world.refusals--;
    this_process()->was_refused = 1;
    return true;
}

int model_memory(void **place, size_t alignment, size_t size) {
    if (is_refused()) return ENOMEM;
    const uint32_t start = (world.used + (uint32_t)alignment - 1) / (uint32_t)alignment * (uint32_t)alignment;
    if (start + size > MEMORY || world.block_count == BLOCKS) abort();
    blocks[world.block_count++] = (struct block){start, (uint32_t)size, 0, 0, (uint32_t)current + 1};
    world.used = start + (uint32_t)size;
    *place = memset(&memory[start], 0xcc, size);
    return 0;
}

void model_free(void *place) {
    if (!place) return;
    struct block *const block = block_of(place);
    if (!block || place != &memory[block->start]) is_wrong("no memory is freed");
    if (!is_locked()) is_wrong("memory is freed without the lock");
    if (current >= 0 && block->is_shown) check_left(place);
    for (int other = 0; other < process_count; other++)
        if (other != current && (processes[other].reads >> (block - blocks) & 1) != 0)
            is_wrong("a part is freed that a process may read");
    block->is_free = 1;
    memset(&memory[block->start], 0xdd, block->size);
}

static uint32_t sleepers(uint32_t line) {
    uint32_t count = 0;
    for (int process = 0; process < process_count; process++)
        count += processes[process].status == SLEEPS && processes[process].number == line;
    return count;
}

static void wake(uint32_t line, uint32_t most) {
    uint32_t place = 0;
    for (int process = 0; process < process_count; process++) {
        struct process *const it = &processes[process];
        if (it->status == SLEEPS && it->number == line && (place++ == choice || most > 1)) it->status = READY;
    }
}

long model_futex(long number, ...);
long model_futex(long number, ...) {
    va_list rest;
    va_start(rest, number);
    const uint32_t *const word = va_arg(rest, const uint32_t *);
    const int operation = va_arg(rest, int) & ~FUTEX_PRIVATE_FLAG, value = va_arg(rest, int);
    va_end(rest);
    uint32_t line;
    if (current < 0 || code_field(queue, word, &line) != LINE) return 0;
    if (operation == FUTEX_WAKE) {
        step(WAKE, line);
        if (value > 1 && (uint32_t)value < sleepers(line)) abort(); /* in no model */
        return wake(line, (uint32_t)value), 0;
    }
    step(SLEEP, line);
    if (line == 0) check_full();
    if (*word != (uint32_t)value) return errno = EAGAIN, -1;
    this_process()->status = SLEEPS;
    step(ASLEEP, line);
    return 0;
}

/* ---- the library */

/* The place of a pass: of its queue, its side and its number. */
struct pass_at {
    struct raw *raw;
    uint32_t side, number;
    struct pending *pending;
};

static struct pass_at find(const vahepito_handle *pass, bool is_sender) {
    (void)block_of(pass);
    const uint32_t at = number_in(pass), side = at / PLACES % SIDES;
    if (!pass->live || at / PLACES / SIDES >= world.raw_count) is_wrong("no pass is used");
    struct raw *const raw = &raws[at / PLACES / SIDES];
    if (!raw->is_live[side][at % PLACES]) is_wrong("a pass is used that was dropped");
    if (is_sender != (side == 0)) is_wrong("a pass of the other side is used");
    return (struct pass_at){raw, side, at % PLACES, &raw->pending[side][at % PLACES]};
}

static struct pending *pending_at(uint32_t number) {
    return &raws[number / PLACES / SIDES].pending[number / PLACES % SIDES][number % PLACES];
}

static uint32_t number_of(const vahepito_handle *pass, bool is_sender) {
    const struct pass_at at = find(pass, is_sender);
    return ((uint32_t)(at.raw - raws) * SIDES + at.side) * PLACES + at.number;
}

/* A call of a pass takes effect. */
static void take_effect(struct raw *raw, uint32_t side, struct pending *it) {
    it->is_done = 1;
    if (it->kind == CLOSE) {
        it->code = raw->closed ? VAHEPITO_ALREADY : VAHEPITO_SHUT, it->value = raw->accepted, raw->closed = 1;
    } else if (side > 0) {
        uint8_t *const taken = &raw->taken[side - 1];
        it->code = *taken < raw->accepted ? VAHEPITO_GOT : raw->closed ? VAHEPITO_ENDED : VAHEPITO_EMPTY;
        it->value = it->code == VAHEPITO_EMPTY ? 0 : *taken;
        if (it->code == VAHEPITO_GOT) it->got = raw->items[(*taken)++];
        if (it->code == VAHEPITO_ENDED) raw->has_ended[side - 1] = 1;
    } else {
        uint8_t least = raw->taken[0];
        if (model->groups > 1 && raw->taken[1] < least) least = raw->taken[1];
        it->code = raw->closed ? VAHEPITO_CLOSED : raw->accepted == raw->life ? VAHEPITO_SPENT : VAHEPITO_ACCEPTED;
        if (it->code == VAHEPITO_ACCEPTED && raw->accepted - least == raw->capacity) it->code = VAHEPITO_FULL;
        it->value = it->code == VAHEPITO_ACCEPTED ? raw->accepted : 0;
        if (raw->accepted == ITEMS) abort();
        if (it->code == VAHEPITO_ACCEPTED) raw->items[raw->accepted++] = it->item;
    }
}

static uint32_t answer(struct pass_at at, uint64_t *value, uint8_t *got) {
    struct pending *const it = at.pending;
    if (it->kind == 0) is_wrong("a call is turned that isn't begun");
    if (!it->is_done) take_effect(at.raw, at.side, it);
    const uint32_t code = it->code;
    *value = it->value, *got = it->got;
    memset(it, 0, sizeof *it);
    if (current >= 0 && at.side == 0) this_process()->is_late = 0, this_process()->finds_full = code == VAHEPITO_FULL;
    return code;
}

static void begin(const vahepito_handle *pass, struct pass_at at, uint8_t kind, uint8_t item) {
    if (at.pending->kind != 0) is_wrong("a pass has two calls");
    check_found(pass, at.side, at.number + 1);
    if (at.side == 0) check_bound((uint32_t)(at.raw - raws), kind == CLOSE);
    *at.pending = (struct pending){kind, item, 0, 0, 0, 0};
}

uint32_t vahepito_try_send_words(vahepito_handle *sender, const uint64_t *words, size_t count, uint64_t *place,
                                 uint32_t *served) {
    uint8_t got;
    (void)count, (void)served;
    step(model->has_turns ? BEGIN : TRY_SEND, 0);
    const struct pass_at at = find(sender, true);
    *place = 0;
    if (at.raw->begun[at.number] == at.raw->per_sender) return VAHEPITO_WORN;
    at.raw->begun[at.number]++;
    begin(sender, at, TRY_SEND, (uint8_t)*words);
    return current >= 0 && model->has_turns ? VAHEPITO_WAITING : answer(at, place, &got);
}

uint32_t vahepito_try_send(vahepito_handle *sender, uint64_t word, uint64_t *place, uint32_t *served) {
    return vahepito_try_send_words(sender, &word, 1, place, served);
}

uint32_t vahepito_turn_send(vahepito_handle *sender, uint64_t *place, uint32_t *served) {
    uint8_t got;
    (void)served;
    step(TURN, number_of(sender, true));
    return answer(find(sender, true), place, &got);
}

static uint32_t answer_of_take(struct pass_at at, vahepito_item *item, uint64_t *total) {
    uint64_t value;
    uint8_t got;
    const uint32_t code = answer(at, &value, &got);
    memset(item, 0, sizeof *item);
    *total = code == VAHEPITO_ENDED ? value : 0;
    if (code == VAHEPITO_GOT) *item = (vahepito_item){value, 1, 1, 1, {got, 0, 0, 0}};
    return code;
}

uint32_t vahepito_turn_take_words(vahepito_handle *receiver, vahepito_item *item, uint64_t *total, uint32_t *served) {
    (void)served;
    step(TURN, number_of(receiver, false));
    return answer_of_take(find(receiver, false), item, total);
}

uint32_t vahepito_try_take_words(vahepito_handle *receiver, vahepito_item *item, uint64_t *total, uint32_t *served) {
    (void)served;
    step(model->has_turns ? BEGIN : TRY_TAKE, 0);
    const struct pass_at at = find(receiver, false);
    begin(receiver, at, TRY_TAKE, 0);
    if (current < 0 || !model->has_turns) return answer_of_take(at, item, total);
    return *total = 0, VAHEPITO_WAITING;
}

/* An item of one word has its body where one of words has the count. */
uint32_t vahepito_try_take(vahepito_handle *receiver, vahepito_word_item *item, uint64_t *total, uint32_t *served) {
    vahepito_item same = {0, 0, 0, 0, {0, 0, 0, 0}};
    const uint32_t code = vahepito_try_take_words(receiver, &same, total, served);
    *item = (vahepito_word_item){same.place, same.sender, same.number, same.words[0]};
    return code;
}

uint32_t vahepito_begin_close(vahepito_handle *sender) {
    if (model->has_turns) step(BEGIN, 0);
    begin(sender, find(sender, true), CLOSE, 0);
    return VAHEPITO_BEGUN;
}

uint32_t vahepito_turn_close(vahepito_handle *sender, uint64_t *total, uint32_t *served) {
    uint8_t got;
    (void)served;
    step(model->has_turns ? TURN : CLOSE, number_of(sender, true));
    return answer(find(sender, true), total, &got);
}

/* Looks are by the senders of seats that are taken, and that have no call then. */
static struct raw *looked_at(const vahepito_handle *sender, uint32_t group) {
    step(COUNT, group);
    const struct pass_at at = find(sender, true);
    if (at.pending->kind != 0) is_wrong("a pass looks in its call");
    if (world.since[1 + at.number][0] == 0) is_wrong("a pass looks whose seat is free");
    if (model->capacity != 0) looked((uint32_t)(at.raw - raws), group);
    return at.raw;
}

uint32_t vahepito_accepted(vahepito_handle *sender, uint64_t *count) {
    *count = looked_at(sender, 0)->accepted;
    return VAHEPITO_DONE;
}

uint32_t vahepito_taken(vahepito_handle *sender, uint32_t group, uint64_t *count) {
    *count = looked_at(sender, group)->taken[group - 1];
    return VAHEPITO_DONE;
}

uint32_t vahepito_open_words(const vahepito_config *config, uint32_t groups, uint32_t words, vahepito_handle *senders,
                             size_t sender_count, vahepito_handle *receivers, size_t receiver_count) {
    if (groups != model->groups || words != model->words || sender_count != model->places ||
        receiver_count != (size_t)groups * model->places)
        abort();
    if (is_refused()) return VAHEPITO_NO_MEMORY;
    if (world.raw_count == QUEUES) abort();
    const uint32_t number = world.raw_count++;
    struct raw *const raw = &raws[number];
    memset(raw, 0, sizeof *raw);
    raw->capacity = (uint8_t)(model->capacity ? config->capacity : model->room);
    raw->life = (uint8_t)(config->life < 255 ? config->life : 255);
    raw->per_sender = (uint8_t)(config->per_sender < 255 ? config->per_sender : 255);
    for (uint32_t side = 0; side <= groups; side++)
        for (uint32_t place = 0; place < model->places; place++) {
            vahepito_handle *const pass = side == 0 ? &senders[place] : &receivers[(side - 1) * model->places + place];
            if (pass->live) is_wrong("a handle isn't empty");
            *pass = (vahepito_handle){(void *)(uintptr_t)(65536 + (number * SIDES + side) * PLACES + place), true};
            raw->is_live[side][place] = 1;
            raw->shares++;
        }
    return VAHEPITO_DONE;
}

uint32_t vahepito_drop(vahepito_handle *pass) {
    (void)block_of(pass);
    if (!pass->live) is_wrong("a pass is dropped twice");
    const struct pass_at at = find(pass, number_in(pass) / PLACES % SIDES == 0);
    if (at.pending->kind != 0) is_wrong("a pass is dropped in its call");
    at.raw->is_live[at.side][at.number] = 0, at.raw->shares--;
    *pass = (vahepito_handle)VAHEPITO_HANDLE_EMPTY;
    return VAHEPITO_DONE;
}

uint32_t vahepito_version(void) { return VAHEPITO_VERSION; }
void vahepito_sizes(size_t *config, size_t *pass, size_t *item, size_t *words_item) {
    *config = sizeof(vahepito_config), *pass = sizeof(vahepito_handle), *item = sizeof(vahepito_word_item),
    *words_item = sizeof(vahepito_item);
}

/* ---- calls, and the oracle */

/* What a send sends, 1 to 15; the second one of two has the next number. */
static uint8_t item_of(int process, uint32_t call) { return (uint8_t)((uint32_t)process * CALLS + call + 1); }

/* An answer in a word: its code, and a value; of an item its place and the item. */
static uint32_t answer_as(uint32_t code, uint64_t value) {
    return ANSWERED | code << 8 | (value < 256 ? (uint32_t)value : 255);
}
static uint32_t got_as(uint64_t place, uint64_t item) {
    return answer_as(VAHEPITO_GOT, place < 16 && item < 16 ? place << 4 | item : 255);
}

static uint32_t code_of(uint32_t answer) { return answer >> 8 & 63; }

static uint32_t make_take(uint32_t group, bool waits) {
    vahepito_item item;
    uint64_t total;
    const uint32_t code =
        waits ? vahepito_take(queue, group, &item, &total) : vahepito_take_now(queue, group, &item, &total);
    if (code == VAHEPITO_GOT)
        return item.count == 1 && item.words[1] == 0 && total == 0 ? got_as(item.place, item.words[0]) : 0;
    return item.place == 0 && item.count == 0 && item.words[0] == 0 ? answer_as(code, total) : 0;
}

static uint32_t make_call(char call, uint8_t item) {
    static const struct timespec now = {0, 0};
    const uint64_t words[2] = {item, item + 1u};
    vahepito_item items[2] = {{0, 0, 0, 0, {0, 0, 0, 0}}, {0, 0, 0, 0, {0, 0, 0, 0}}};
    uint64_t value;
    size_t count;
    uint32_t code;
    switch (call) {
    case 's': code = vahepito_send(queue, item, &value); break;
    case 'm': code = vahepito_send_now(queue, item, &value); break;
    case 'b': code = vahepito_send_many(queue, words, 2, &now, &count), value = count; break;
    case 't': case 'u': return make_take(call == 't' ? 1 : 2, true);
    case 'n': case 'o': return make_take(call == 'n' ? 1 : 2, false);
    case 'k':
        code = vahepito_take_many(queue, 1, items, 2, &now, &count, &value);
        if (code == VAHEPITO_GOT) value = items[0].words[0] | (count == 2 ? items[1].words[0] << 4 : 0);
        break;
    case 'c': code = vahepito_close(queue, &value); break;
    case 'l': code = VAHEPITO_DONE, value = vahepito_length(queue); break;
    case 'i': code = VAHEPITO_DONE, value = vahepito_is_closed(queue); break;
    default: abort();
    }
    return answer_as(code, value);
}

static void run_process(void) {
    for (;;) {
        const char call = calls[current][this_process()->call];
        if (!call) this_process()->status = OVER, stop(), abort();
        this_process()->answer = make_call(call, item_of(current, this_process()->call));
        check_return(code_of(this_process()->answer));
        this_process()->status = RETURNED;
        stop();
    }
}

static bool is_full(const struct order *at) {
    uint8_t least = at->taken[0];
    if (model->groups > 1 && at->taken[1] < least) least = at->taken[1];
    return model->capacity != 0 && at->accepted - least >= model->capacity;
}

static uint32_t send_in(struct order *at, uint8_t item) {
    if (at->closed) return answer_as(VAHEPITO_CLOSED, 0);
    if (is_full(at)) return answer_as(VAHEPITO_FULL, 0);
    if (at->accepted == ITEMS) abort();
    at->items[at->accepted++] = item;
    return answer_as(VAHEPITO_ACCEPTED, at->accepted - 1u);
}

/* What all groups have taken is forgotten. */
static uint32_t take_in(struct order *at, uint32_t group) {
    uint8_t *const taken = &at->taken[group - 1];
    if (*taken == at->accepted)
        return at->closed ? answer_as(VAHEPITO_ENDED, at->accepted) : answer_as(VAHEPITO_EMPTY, 0);
    const uint32_t got = got_as(*taken, at->items[*taken]);
    ++*taken;
    if (model->groups == 1 || at->taken[2 - group] >= *taken) at->items[*taken - 1] = 0;
    return got;
}

/* A part of a call of several sends, takes or loads; or its end. */
static uint32_t part_in(struct order *at, char call, uint32_t before, uint8_t item) {
    const uint32_t done = before & IN_PART ? before & 255 : 0;
    uint32_t it;
    if (call == 'b') {
        it = send_in(at, (uint8_t)(item + done));
        if (code_of(it) != VAHEPITO_ACCEPTED) return answer_as(code_of(it), done);
        return done == 1 ? answer_as(VAHEPITO_ACCEPTED, 2) : IN_PART | 1u;
    }
    if (call == 'k') {
        it = take_in(at, 1);
        if (code_of(it) != VAHEPITO_GOT) return done ? answer_as(VAHEPITO_GOT, done) : it;
        return done ? answer_as(VAHEPITO_GOT, done | (it & 15) << 4) : IN_PART | (it & 15);
    }
    /* A length: which load, what was accepted, and the most that a group lacks. */
    if (!(before & IN_PART)) return IN_PART | 1u << 8 | (uint32_t)at->accepted << 4;
    const uint32_t group = before >> 8 & 15, accepted = before >> 4 & 15;
    uint32_t most = before & 15;
    if (at->taken[group - 1] < accepted && accepted - at->taken[group - 1] > most)
        most = accepted - at->taken[group - 1];
    return group == model->groups ? answer_as(VAHEPITO_DONE, most) : IN_PART | (group + 1) << 8 | accepted << 4 | most;
}

/* The next effect of this process's call in an order; false if it has none there, as it waits. */
static bool extend(struct order *at, int process) {
    const uint32_t number = processes[process].call, before = at->calls[process];
    const char call = calls[process][number];
    const uint8_t item = item_of(process, number);
    uint32_t it;
    switch (call) {
    case 's': case 'm': it = send_in(at, item); break;
    case 't': case 'n': it = take_in(at, 1); break;
    case 'u': case 'o': it = take_in(at, 2); break;
    case 'c': it = answer_as(at->closed ? VAHEPITO_ALREADY : VAHEPITO_SHUT, at->accepted), at->closed = 1; break;
    case 'i': it = answer_as(VAHEPITO_DONE, at->closed); break;
    default: it = part_in(at, call, before, item); break;
    }
    if (strchr("stu", call) && (code_of(it) == VAHEPITO_FULL || code_of(it) == VAHEPITO_EMPTY)) return false;
    at->calls[process] = (uint16_t)it;
    return true;
}

static void add_order(const struct order *it) {
    for (uint32_t at = 0; at < world.order_count; at++)
        if (memcmp(&orders[at], it, sizeof *it) == 0) return;
    if (world.order_count == ORDERS) abort();
    orders[world.order_count++] = *it;
}

static int compare(const void *one, const void *other) { return memcmp(one, other, sizeof(struct order)); }

/* All orders that extend these by effects of calls that are under way; and of them those that explain the answer of
 * this process. */
static bool is_explained(int process, uint32_t it) {
    struct process *const returned = &processes[process];
    const bool is_refused_call = returned->was_refused && code_of(it) == VAHEPITO_NO_MEMORY;
    uint32_t kept = 0;
    for (uint32_t at = 0; at < world.order_count; at++)
        for (int other = 0; other < process_count; other++) {
            struct order next = orders[at];
            if (next.calls[other] == 0 || (next.calls[other] & ANSWERED)) continue;
            if (extend(&next, other)) add_order(&next);
        }
    for (uint32_t at = 0; at < world.order_count; at++) {
        struct order *const order = &orders[at];
        /* A send that was refused memory has no effect; of several, those that came before have. */
        if (is_refused_call ? order->calls[process] != ((it & 255) ? IN_PART | (it & 255) : NOT_YET)
                            : order->calls[process] != it)
            continue;
        order->calls[process] = 0;
        orders[kept++] = *order;
    }
    world.order_count = kept;
    qsort(orders, kept, sizeof *orders, compare);
    return kept > 0;
}

/* ---- the search */

/* A step of a process, or, by no process, a call of the library that takes effect. */
struct move {
    uint32_t process, choice, kind, number;
};

static struct move path[LONGEST];
static unsigned char *saved;     /* the states on the path */
static size_t saved_size, saved_room;
static uint32_t depth;
static size_t state_count;

static unsigned char *copy(unsigned char *at, void *bytes, size_t size, bool saves) {
    if (saves) memcpy(at, bytes, size);
    else memcpy(bytes, at, size);
    return at + size;
}

/* Copies the state to these bytes, or from them. Returns its size. Memory that was freed isn't in it. */
static size_t move_state(unsigned char *const to, bool saves) {
    const size_t end_of_seats = code_layout.seats + (1u + model->places) * code_layout.seat;
    unsigned char *at = copy(to, &world, sizeof world, saves);
    at = copy(at, processes, (size_t)process_count * sizeof *processes, saves);
    at = copy(at, blocks, world.block_count * sizeof *blocks, saves);
    at = copy(at, raws, world.raw_count * sizeof *raws, saves);
    at = copy(at, orders, world.order_count * sizeof *orders, saves);
    for (uint32_t k = 0; k < world.block_count; k++)
        if (!blocks[k].is_free) at = copy(at, memory + blocks[k].start, k == 0 ? end_of_seats : blocks[k].size, saves);
    for (int process = 0; process < process_count; process++) {
        unsigned char *const top = processes[process].top;
        if (!saves) memset(top - UNUSED, 0, UNUSED);
        at = copy(at, top, (size_t)(stacks[process] + STACK - top), saves);
    }
    while ((at - to) % 32 != 0) *at++ = 0;
    return (size_t)(at - to);
}

/* A state that was reached, by its hash: 0, 0 is none. The lowest bit is whether the state is on the path. */
struct seen {
    uint64_t one, other;
};

static struct seen *seen;
static size_t seen_room;

__extension__ typedef unsigned __int128 twice;

static uint64_t fold(uint64_t one, uint64_t other) {
    const twice product = (twice)one * other;
    return (uint64_t)product ^ (uint64_t)(product >> 64);
}

/* Of 128 bits: two states with the same are taken for one. The size is a multiple of 32. */
static struct seen hash_of(const unsigned char *bytes, size_t size) {
    uint64_t one = size, other = ~size, words[4];
    for (size_t at = 0; at < size; at += sizeof words) {
        memcpy(words, bytes + at, sizeof words);
        one = fold(words[0] ^ UINT64_C(0xa0761d6478bd642f) ^ one, words[1] ^ UINT64_C(0xe7037ed1a0b428db)) + words[2];
        other =
            fold(words[2] ^ UINT64_C(0x8ebc6af09c88c6e3) ^ other, words[3] ^ UINT64_C(0x589965cc75374cc3)) + words[0];
    }
    const uint64_t all = fold(one ^ UINT64_C(0x1d8e4e27c47d124f), other ^ UINT64_C(0xeb44accab455d165));
    const struct seen it = {all, fold(other ^ UINT64_C(0x9e3779b97f4a7c15), one + 1) & ~UINT64_C(1)};
    return it.one | it.other ? it : (struct seen){1, 0};
}

static struct seen *place_of(struct seen it) {
    size_t at = it.one % seen_room;
    while ((seen[at].one | seen[at].other) != 0 &&
           (seen[at].one != it.one || (seen[at].other & ~UINT64_C(1)) != it.other))
        at = (at + 1) % seen_room;
    return &seen[at];
}

static void grow(void) {
    struct seen *const before = seen;
    const size_t room = seen_room;
    seen_room = room ? 2 * room : 1 << 16;
    seen = calloc(seen_room, sizeof *seen);
    if (!seen) abort();
    for (size_t at = 0; at < room; at++)
        if ((before[at].one | before[at].other) != 0)
            *place_of((struct seen){before[at].one, before[at].other & ~UINT64_C(1)}) = before[at];
    free(before);
}

static bool has_free_seat(void) {
    for (uint32_t seat = 1; seat <= model->places; seat++)
        if (*(const uintptr_t *)(const void *)&memory[code_layout.seats + seat * code_layout.seat] == 0) return true;
    return false;
}

/* How many choices the next step of a process has; 0 if it isn't made now. A turn that finds no answer is no step. */
static uint32_t choices(const struct process *process) {
    if (process->status != READY) return 0;
    switch (process->kind) {
    case TAKE_LOCK: return world.lock == 0;
    case LOOK_FOR_SEAT: return has_free_seat();
    case TURN: return pending_at(process->number)->is_done;
    case REFUSED: return world.refusals > 0 ? 2 : 1;
    case WAKE: return sleepers(process->number) > 1 ? sleepers(process->number) : 1;
    default: return 1;
    }
}

/* Goes on with the process up to its next step. */
static void resume(int process) {
    struct process *const it = &processes[process];
    for (;;) {
        current = process;
        code_begin(it->seat, (uint32_t)process);
        if (_setjmp(scheduler) == 0) _longjmp(it->context, 1);
        it->seat = (uint32_t)code_seat();
        if (it->seat > model->places) it->seat = 1 + (it->seat - 1) % model->places; /* the same to the code */
        current = -1;
        if (fault || it->status != RETURNED) return;
        if (!is_explained(process, it->answer)) {
            fault = "no order of the calls explains the answers";
            return;
        }
        it->status = READY, it->has_begun = it->was_refused = it->answer = 0;
        it->call++;
    }
}

static void start(int process) {
    static ucontext_t context;
    memset(&context, 0, sizeof context);
    if (getcontext(&context) != 0) abort();
    context.uc_stack.ss_sp = stacks[process];
    context.uc_stack.ss_size = STACK;
    makecontext(&context, run_process, 0);
    current = process;
    processes[process].seat = model->seats == NEW ? 0 : 1u + (uint32_t)process % model->places;
    code_begin(processes[process].seat, (uint32_t)process);
    if (_setjmp(scheduler) == 0) (void)setcontext(&context);
    processes[process].seat = (uint32_t)code_seat();
    current = -1;
}

/* Whether some order has it that the calls that sleep find nothing. */
static bool may_sleep(void) {
    for (uint32_t at = 0; at < world.order_count; at++) {
        bool is_so = true;
        for (int process = 0; process < process_count; process++) {
            struct order next = orders[at];
            if (processes[process].status == SLEEPS)
                is_so = is_so && next.calls[process] == NOT_YET && !extend(&next, process);
        }
        if (is_so) return true;
    }
    return false;
}

static uint32_t left_count[GROUPS];
static uint64_t left_items[GROUPS][ITEMS];

static void is_left(void *with, uint32_t group, const vahepito_item *item) {
    (void)with;
    left_items[group - 1][left_count[group - 1]++] = item->words[0];
}

static bool is_as_left(const struct order *at) {
    for (uint32_t group = 0; group < model->groups; group++) {
        if (left_count[group] != (uint32_t)(at->accepted - at->taken[group])) return false;
        for (uint32_t k = 0; k < left_count[group]; k++)
            if (left_items[group][k] != at->items[at->taken[group] + k]) return false;
    }
    return true;
}

static const char *destroyed(void) {
    bool is_same = false;
    memset(left_count, 0, sizeof left_count);
    for (int process = 0; process < process_count; process++) processes[process].reads = 0;
    code_begin(1, 1);
    vahepito_destroy(queue, is_left, NULL);
    for (uint32_t k = 0; k < world.block_count; k++)
        if (!blocks[k].is_free) return "memory isn't freed";
    for (uint32_t k = 0; k < world.raw_count; k++)
        if (raws[k].shares != 0) return "a queue of the row isn't freed";
    for (uint32_t at = 0; at < world.order_count; at++) is_same |= is_as_left(&orders[at]);
    return is_same ? NULL : "other items are left";
}

/* No process makes a step. */
static void check_end(void) {
    bool is_over = true;
    for (int process = 0; process < process_count; process++) {
        if (processes[process].status == READY) fault = "a call doesn't end";
        is_over = is_over && processes[process].status != SLEEPS;
    }
    if (fault) return;
    if (!is_over && !may_sleep()) fault = "a wake-up is lost";
    if (is_over && _setjmp(scheduler) == 0) fault = destroyed();
}

/* The moves from this state. If a process makes a step that none of the others' steps hinders or sees, these are its
 * choices alone. */
static uint32_t find_moves(struct move *moves) {
    uint32_t count = 0;
    for (int process = 0; process < process_count; process++) {
        const struct process *const it = &processes[process];
        const uint32_t some = choices(it);
        const bool is_alone = some > 0 && (it->kind == REFUSED || it->kind == BEGIN || it->kind == TURN);
        if (is_alone) count = 0;
        for (uint32_t at = 0; at < some; at++)
            moves[count++] = (struct move){(uint32_t)process, at, it->kind, it->number};
        if (is_alone) return count;
    }
    if (!model->has_turns) return count;
    for (uint32_t at = 0; at < world.raw_count * SIDES * PLACES; at++) {
        const struct pending *const it = pending_at(at);
        if (it->kind != 0 && !it->is_done) moves[count++] = (struct move){PROCESSES, 0, 0, at};
    }
    return count;
}

static void make(struct move move) {
    path[depth++] = move;
    choice = move.choice;
    if (move.process < PROCESSES) resume((int)move.process);
    else take_effect(&raws[move.number / PLACES / SIDES], move.number / PLACES % SIDES, pending_at(move.number));
}

static size_t most_states; /* of a model that the search visits */

/* Searches the states that follow this one, if it is new. */
static void explore(void) {
    struct move moves[PROCESSES * PROCESSES];
    const size_t state = saved_size;
    if (depth == LONGEST) abort();
    if (saved_room - saved_size < MOST_BYTES) {
        saved_room = 2 * saved_room + MOST_BYTES;
        saved = realloc(saved, saved_room);
        if (!saved) abort();
    }
    const size_t size = move_state(saved + state, true);
    const struct seen it = hash_of(saved + state, size);
    if (2 * state_count + 2 > seen_room) grow();
    const struct seen *const place = place_of(it);
    if ((place->one | place->other) != 0) {
        if (place->other & 1) fault = "the processes make steps forever";
        return;
    }
    if (state_count == most_states) return;
    *place_of(it) = (struct seen){it.one, it.other | 1};
    state_count++;
    saved_size += size;
    const uint32_t count = find_moves(moves);
    if (count == 0) check_end();
    for (uint32_t at = 0; at < count && !fault; at++) {
        if (at > 0) (void)move_state(saved + state, false);
        make(moves[at]);
        if (!fault) explore();
        if (!fault) depth--;
    }
    saved_size = state;
    place_of(it)->other &= ~UINT64_C(1);
}

/* Searches all states of a model, or only its first ones. Returns whether one is wrong. */
static bool search(const struct model *it, size_t most) {
    vahepito_attributes attributes = VAHEPITO_ATTRIBUTES;
    model = it;
    memset(&world, 0, sizeof world);
    memset(processes, 0, sizeof processes);
    memset(blocks, 0, sizeof blocks);
    memset(raws, 0, sizeof raws);
    memset(orders, 0, sizeof orders);
    has_waits = strpbrk(it->calls, "stu") != NULL;
    memset(calls, 0, sizeof calls);
    process_count = sscanf(it->calls, "%4s %4s %4s %4s", calls[0], calls[1], calls[2], calls[3]);
    memset(memory, 0, sizeof memory);
    memset(stacks, 0, sizeof stacks);
    memset(seen, 0, seen_room * sizeof *seen);
    most_states = most;
    state_count = saved_size = depth = 0;
    fault = NULL;
    attributes.capacity = it->capacity, attributes.groups = it->groups, attributes.places = it->places,
    attributes.words = it->words;
    attributes.life = it->life, attributes.per_sender = it->per_sender;
    if (_setjmp(scheduler) == 0 && vahepito_create_as(&attributes, &queue) != VAHEPITO_DONE) abort();
    world.order_count = 1;
    world.refusals = it->refusals;
    for (int process = 0; process < process_count && !fault; process++) start(process);
    if (!fault) explore();
    return fault != NULL;
}

static void print_path(void) {
    static const char *const names[] = {"access",   "look for a seat", "lock",  "sleep", "awake", "wake", "refused",
                                        "try send", "try take",        "close", "begin", "turn",  "count"};
    for (uint32_t at = 0; at < depth; at++) {
        if (path[at].process == PROCESSES) fprintf(stderr, "  effect at %u\n", path[at].number);
        else
            fprintf(stderr, "  process %u: %s %u choice %u\n", path[at].process, names[path[at].kind], path[at].number,
                    path[at].choice);
    }
}

/* From small ones to large ones. */
static const struct model models[] = {
    {"mmm c", 1, 0, 1, 2, 0, 0, 0, false, THERE, 1},
    {"mmmm n", 0, 2, 1, 2, 0, 0, 0, false, THERE, 1}, {"b k", 0, 1, 1, 2, 1, 0, 1, false, THERE, 1},
    {"b k", 2, 0, 1, 2, 1, 0, 0, false, THERE, 1}, {"mm nn", 2, 0, 1, 1, 1, 0, 0, false, NEW, 1},
    {"mn mn", 0, 1, 1, 2, 1, 0, 0, false, NEW, 1}, {"mm no", 1, 0, 2, 2, 1, 0, 0, false, THERE, 1},
    {"mm nn", 1, 0, 1, 1, 1, 0, 1, false, THERE, 1}, {"mm nn", 0, 1, 1, 2, 0, 0, 1, false, THERE, 1},
    {"mmm nc", 1, 0, 1, 2, 1, 0, 0, false, THERE, 1}, {"mmm no", 1, 0, 2, 2, 2, 0, 0, false, THERE, 1},
    {"mm n n", 0, 1, 1, 1, 0, 0, 0, false, THERE, 1}, {"mmm nn", 1, 0, 1, 2, 2, 0, 0, false, THERE, 1},
    {"mbb nn", 2, 0, 1, 2, 2, 0, 0, false, THERE, 1}, {"mm mn", 2, 0, 1, 2, 1, 0, 0, true, THERE, 1},
    {"mm c c", 2, 0, 1, 2, 1, 0, 0, false, THERE, 1}, {"mm m", 1, 0, 1, 2, 1, 0, 0, false, THERE, 1},
    {"mm nn", 2, 0, 1, 1, 1, 0, 0, false, THERE, 1}, {"mm oon", 2, 0, 2, 2, 1, 0, 0, false, THERE, 1},
    {"mmm nnc", 1, 0, 1, 1, 2, 0, 0, false, THERE, 1}, {"mm nm", 0, 1, 1, 1, 0, 0, 0, true, THERE, 1},
    {"mm nn", 1, 0, 1, 2, 1, 0, 0, true, THERE, 1}, {"mm nn", 2, 0, 1, 1, 1, 0, 0, true, THERE, 2},
    {"m m n", 1, 0, 1, 2, 1, 0, 0, false, THERE, 1}, {"mmmm nnn", 3, 0, 2, 2, 2, 0, 0, false, THERE, 1},
    {"mm m nn", 1, 0, 1, 1, 2, 0, 0, false, THERE, 1}, {"mn mn l", 0, 1, 1, 2, 1, 0, 0, false, THERE, 1},
    {"m m n", 0, 1, 1, 2, 1, 0, 0, true, THERE, 1}, {"mmm nnn", 0, 1, 1, 2, 1, 0, 0, false, THERE, 1},
    {"mmm nnn", 2, 0, 1, 1, 2, 0, 0, false, THERE, 1}, {"mm nn l", 0, 1, 1, 2, 0, 0, 0, false, THERE, 1},
    {"m m n", 1, 0, 1, 2, 1, 0, 0, true, THERE, 1}, {"ss tt", 2, 0, 1, 2, 1, 0, 0, false, THERE, 1},
    {"mmmm nnm", 2, 0, 1, 2, 4, 0, 0, false, THERE, 1}, {"m m n c", 0, 1, 1, 1, 0, 0, 0, false, THERE, 1},
    {"mm nn l", 2, 0, 1, 2, 1, 0, 0, false, THERE, 1}, {"mm nm", 0, 1, 1, 2, 0, 0, 0, false, THERE, 1},
    {"mm no l", 0, 1, 2, 2, 0, 0, 0, false, THERE, 1}, {"mm mm", 2, 0, 1, 1, 1, 0, 0, false, THERE, 1},
    {"b k c", 1, 0, 1, 2, 1, 0, 0, false, THERE, 1}, {"m m n n", 1, 0, 1, 1, 1, 0, 0, false, THERE, 1},
    {"mm nn ci", 0, 1, 1, 1, 0, 0, 1, false, THERE, 1}, {"mm m n", 1, 0, 1, 2, 2, 0, 0, false, THERE, 1},
    {"mmm nnn", 3, 0, 1, 2, 1, 0, 0, false, THERE, 1}, {"mm n o", 0, 1, 2, 2, 1, 0, 0, false, THERE, 1},
    {"mmm mm", 0, 1, 1, 1, 0, 0, 0, false, THERE, 1}, {"mmm nnn", 2, 0, 1, 2, 1, 0, 0, false, THERE, 1},
    {"mm m n", 0, 1, 1, 1, 0, 0, 0, true, THERE, 1}, {"mm nn n", 0, 1, 1, 1, 1, 0, 0, false, THERE, 1},
    {"mn mn c", 1, 0, 1, 2, 1, 0, 0, false, THERE, 1}, {"mm m n", 0, 1, 1, 1, 0, 0, 1, false, THERE, 1},
    {"mm n o", 2, 0, 2, 2, 1, 0, 0, false, THERE, 1}, {"ss tt", 1, 0, 1, 1, 1, 0, 0, false, THERE, 1},
    {"s s t", 1, 0, 1, 1, 2, 0, 0, false, THERE, 1}, {"mm nn c", 0, 1, 1, 2, 0, 0, 0, false, THERE, 1},
    {"mm n n", 0, 1, 1, 2, 1, 0, 0, false, THERE, 1}, {"mm nn c", 2, 0, 1, 2, 1, 0, 0, false, THERE, 1},
    {"mm m n", 2, 0, 1, 1, 1, 0, 0, false, THERE, 1}, {"mm mm", 2, 0, 1, 2, 1, 0, 1, false, THERE, 1},
    {"sss ttt", 1, 0, 1, 2, 2, 0, 0, false, THERE, 1}, {"mnmo mnmo", 2, 0, 2, 1, 1, 0, 0, false, THERE, 1},
    {"s t u", 1, 0, 2, 1, 1, 0, 0, false, THERE, 1}, {"mm nn n", 2, 0, 1, 1, 1, 0, 0, false, THERE, 1},
    {"mm n o", 2, 0, 2, 2, 1, 0, 0, true, THERE, 1}, {"mm n n", 2, 0, 1, 2, 1, 0, 0, false, THERE, 1},
    {"mm nn c", 2, 0, 1, 2, 1, 0, 0, true, THERE, 1}, {"mnmn mnmn", 2, 0, 1, 1, 2, 0, 0, false, THERE, 1},
    {"mm m nn", 0, 1, 1, 1, 0, 0, 0, false, THERE, 1}, {"ss t c", 1, 0, 1, 2, 1, 0, 0, false, THERE, 1},
    {"mnmn mnmn", 2, 0, 1, 2, 0, 1, 0, false, THERE, 1}, {"mm m n", 2, 0, 1, 2, 0, 1, 0, false, THERE, 1},
    {"s s t", 1, 0, 1, 2, 1, 0, 0, false, THERE, 1}, {"mm nn nn", 2, 0, 1, 1, 1, 0, 0, false, THERE, 1},
    {"mm m n", 2, 0, 1, 2, 1, 0, 0, false, THERE, 1}, {"mm m n", 0, 1, 1, 2, 0, 0, 0, false, THERE, 1},
    {"mnmn mnmn", 0, 1, 1, 2, 0, 0, 0, false, THERE, 1}, {"ss t u", 1, 0, 2, 1, 1, 0, 0, false, THERE, 1},
    {"mnmn mnmn", 1, 0, 1, 1, 1, 0, 0, false, THERE, 1}, {"s s tt", 1, 0, 1, 1, 1, 0, 0, false, THERE, 1},
    {"mnmn mnmn", 2, 0, 1, 2, 1, 0, 0, false, THERE, 1}, {"ss t t", 0, 1, 1, 1, 0, 0, 0, false, THERE, 1},
    {"mn mn mn", 2, 0, 1, 1, 1, 0, 0, false, THERE, 1},
};

enum { FEW = 44 }; /* of these a slow machine searches */

int main(int count, char **words) {
    const char *const word = count > 1 ? words[1] : "";
    const bool faults = strcmp(word, "--faults") == 0, few = strcmp(word, "--few") == 0,
               sizes = strcmp(word, "--sizes") == 0;
    /* Most faults are near the first states of some model. */
    static const size_t most[] = {4000, 32000, SIZE_MAX};
    enum { ROUNDS = sizeof most / sizeof *most };
    const size_t models_count = few ? FEW : sizeof models / sizeof *models;
    size_t all = 0;
    if (faults && count > 2) wanted = words[2];
    has_rules = !faults || wanted;
    grow();
    for (size_t round = faults ? 0 : ROUNDS - 1; round < ROUNDS; round++)
        for (size_t at = 0; at < models_count; at++) {
            const bool found = search(&models[at], most[round]);
            all += state_count;
            if (sizes || (found && !faults)) fprintf(stderr, "%s: %zu states\n", model->calls, state_count);
            if (!found || (wanted && strcmp(fault, wanted) != 0)) continue;
            if (faults) return printf("%s: %s\n", model->calls, fault) < 0;
            fprintf(stderr, "%s, after these steps:\n", fault);
            print_path();
            return 1;
        }
    if (faults) return 1;
    printf("the row is one queue\n");
    return all > 1000 ? 0 : 1;
}
#endif
