/* Vahepito for C, the queue of vahepito.h: a row of proved queues, and the calls that wait. `make` compiles this file
 * into libvahepito_queue.a and into the shared library; a program may also compile it with its own files. A thread that
 * waits parks on a futex, so it is for Linux.
 *
 * A row. A vahepito_queue has a row of the proved library's queues, whose calls are made by handles (handles.h). Sends
 * are at the last one, and each group is at one of them. A queue that is used up (a place may begin no further send, or
 * its life is over), or is full and the row has no bound, is closed, and a further one follows. A take that finds the
 * end of its queue continues at the next one. So two rules hold:
 *
 * 1. a send or a close at a queue begins after a close of the queue before it has returned;
 * 2. a take of a group at a queue begins after a take of that group at the queue before has found the end.
 *
 * Accepted, Got and Empty of any queue are answers of the row, Closed and Ended of the last one alone. That such a row
 * is one queue, linearizable and first in, first out, is proved of the proved queues (`rows_are_linearizable` of the
 * crate cc_row). That this file keeps the rules is tested, and the program row_interleavings.c searches every
 * interleaving of small models for an answer that no such queue gives, and for wrong use of memory. It keeps them by a
 * lock: the last queue is closed and the next one appended under the lock, and a group continues under the lock.
 *
 * The bound. While all groups are at the last queue, its own capacity is the row's. While some group is at an earlier
 * queue, the row is `narrow`: then each send is made under the lock, after a look at the counts. So Full is returned
 * only if `capacity` items were in the row.
 *
 * A further queue of a row without a bound is opened beforehand: a send that has appended one opens the next one then,
 * without the lock. If that isn't there yet, a queue is opened under the lock.
 *
 * Seats. A call takes a seat and then reads at which queue it is. A seat has one sender, and one receiver of each
 * group, of each queue of the row, so that one thread at a time uses them. Then the seat says which queue that is. A
 * queue that all groups have left is freed once each seat was seen away from it after that, free or at another one: a
 * call that takes its seat later reads a later queue. So a call whose thread is stopped keeps one queue. A call that
 * parks for room or an item has no seat, nor has one that waits for the lock: so a thread that has the lock may wait
 * for a seat.
 *
 * Waits. The senders wait in one line for room, and the receivers of each group in another for an item. A line has two
 * counts in one word: `waiting`, the calls in line that aren't notified, and `notified`, the notifications that no call
 * has used. ../WAITS.md says how long each wait spins, and why no wake-up is lost. The program interleavings.c runs the
 * code of this file in every interleaving of small models, and finds a lost wake-up if one of the steps is wrong. */
#ifdef __cplusplus
#error "vahepito_queue.c is C: compile it with cc -std=c11 -c vahepito_queue.c, and link vahepito_queue.o"
#endif
#ifndef _POSIX_C_SOURCE
#define _POSIX_C_SOURCE 200809L
#endif
#ifndef VAHEPITO_UNTOLD
#define VAHEPITO_UNTOLD /* the callers' own files announce their calls */
#endif
#include "handles.h"

#include <errno.h>
#include <limits.h>
#include <linux/futex.h>
#include <pthread.h>
#include <sched.h>
#include <stdlib.h>
#include <string.h>
#include <sys/eventfd.h>
#include <sys/syscall.h>
#include <time.h>
#include <unistd.h>

/* As <unistd.h> and <sched.h> declare them, which do so only with some feature macros. */
extern long syscall(long number, ...);
extern int sched_getcpu(void);

/* Each wait is a time by the clock, in nanoseconds, since a pause takes 4 ns on one processor and 60 on another.
 * bindings/WAITS.md has the reasons.
 *
 * How long a call spins, and how long it then yields, until it parks in a line for room or an item. With 0 it parks at
 * once. */
#ifndef VAHEPITO_SPIN_TIME
#define VAHEPITO_SPIN_TIME 1000
#endif
#ifndef VAHEPITO_YIELD_TIME
#define VAHEPITO_YIELD_TIME 4000
#endif

/* Whether a thread can ask in some nanoseconds on which processor it runs. */
#ifndef VAHEPITO_PROCESSORS
#if defined(__x86_64__)
#define VAHEPITO_PROCESSORS 1
#else
#define VAHEPITO_PROCESSORS 0
#endif
#endif

/* How long a call spins until it parks for an answer or a seat. It doesn't yield. After OF_A_CALL, in which a call that
 * runs is over, it parks if the thread of another seat was last on its processor. */
#ifndef VAHEPITO_SERVED_TIME
#define VAHEPITO_SERVED_TIME (VAHEPITO_PROCESSORS ? 150000 : 20000)
#endif
enum { OF_A_CALL = 1500 };

/* The pause after the first look, and the longest one: each is twice as long as the one before. A call that waits for
 * the other side, from QUICK_CAPACITY on, begins with the longest one if its side passed QUICK_ITEMS since the wait
 * before: so the other side gets ahead. */
enum { FIRST_PAUSE = 150, LONGEST_PAUSE = 1000, QUICK_CAPACITY = 16, QUICK_ITEMS = 5 };

/* How long a call lets others of its side go ahead, if the last two calls in its seat waited for them and it comes at
 * once: within AT_ONCE. */
#ifndef VAHEPITO_AHEAD
#define VAHEPITO_AHEAD 2000
#endif
enum { AT_ONCE = 500 };

/* A side is slow if an item takes longer than this, in nanoseconds: longer than the park of a sender and that of a
 * receiver. */
#ifndef VAHEPITO_PACE
#define VAHEPITO_PACE 20000
#endif

/* How many seats there are at most, and if the program says nothing. A row without a bound has fewer then: its sends
 * open further queues, which takes 1 us, half a microsecond a seat and 13 ns an item, and as long again for memory that
 * the process hasn't used before. */
enum { SEATS = 64, USUAL_SEATS = 16, UNBOUNDED_SEATS = 4, MOST_GROUPS = 8 };

/* The capacities of the queues of a row without a bound. */
enum { FIRST_CAPACITY = 64, FURTHER_CAPACITY = 256 };

/* What is special in a row. */
enum { NARROW = 1, WAS_FULL = 2 };

/* What a try of a send returns if the row is narrow: no code of the library. */
#define ROW_IS_NARROW UINT32_MAX

/* ---- lines of calls that wait */

/* A line of calls that wait: `notified` in the lower half of the word, and `waiting` in the upper half. */
typedef struct {
    uint64_t counts;
} call_line;

#define ONE_WAITING ((uint64_t)1 << 32)

/* The line of calls that park until they are answered or have a seat. `waiting` is PARKED if a call may sleep that no
 * end of a call has woken; else WAS_USED, once a call has parked. `ended` counts the ends that woke the line. */
typedef struct {
    uint32_t waiting, ended;
} served_line;

enum { WAS_USED = 1, PARKED = 2 };

static long call_futex(const void *word, int operation, uint32_t value, const struct timespec *time) {
    const int errno_before = errno;
    const long done =
        syscall(SYS_futex, word, operation | FUTEX_PRIVATE_FLAG, value, time, NULL, FUTEX_BITSET_MATCH_ANY);
    const long answer = done < 0 ? -errno : done;
    errno = errno_before;
    return answer;
}

/* The processor on which this thread ran when it last asked, from 1; 0 if it isn't known. */
static __thread uint32_t thread_processor;

/* Asks on which processor this thread runs. The answer may be old at once. */
static __attribute__((noinline, cold)) void ask_processor(void) {
    if (!VAHEPITO_PROCESSORS) return;
    const int processor = sched_getcpu();
    thread_processor = processor < 0 ? 0 : 1 + (uint32_t)processor;
}

/* Changes the counts, if they are these; else gives what they are. */
static inline bool change_counts(call_line *line, uint64_t *counts, uint64_t next) {
    return __atomic_compare_exchange_n(&line->counts, counts, next, 0, __ATOMIC_SEQ_CST, __ATOMIC_SEQ_CST);
}

/* Between the library's accesses of a call and one of the counts: the two have the order of the program. For x86-64 and
 * aarch64 compilers agree how a sequentially consistent access is written, and no fence is needed (bindings/WAITS.md,
 * "The order of memory"). For other machines, where the library's compiler and this one may differ, it is a fence. */
static inline void keep_order(void) {
#if !defined(__x86_64__) && !defined(__aarch64__)
    __atomic_thread_fence(__ATOMIC_SEQ_CST);
#endif
}

/* Notifies this number of calls of the line, or all if there are fewer. */
static void notify_some(call_line *line, uint64_t counts, uint32_t most) {
    while (counts >= ONE_WAITING) {
        const uint64_t waiting = counts >> 32, chosen = waiting < most ? waiting : most;
        const uint64_t next = counts - chosen * ONE_WAITING + chosen;
        if (!change_counts(line, &counts, next)) continue;
        (void)call_futex(&line->counts, FUTEX_WAKE, chosen < INT_MAX ? (uint32_t)chosen : INT_MAX, NULL);
        return;
    }
}

static __attribute__((noinline, cold)) void notify_line(call_line *line, uint32_t most) {
    notify_some(line, __atomic_load_n(&line->counts, __ATOMIC_SEQ_CST), most);
}

/* Whether a call of the line isn't notified. */
static inline bool has_waiting(const call_line *line) {
    return __builtin_expect(__atomic_load_n(&line->counts, __ATOMIC_SEQ_CST) >> 32 != 0, 0);
}

/* Leaves the line after a look that succeeded. */
static void leave_line(call_line *line) {
    uint64_t counts = __atomic_load_n(&line->counts, __ATOMIC_SEQ_CST), next;
    do next = counts >= ONE_WAITING ? counts - ONE_WAITING : counts - 1;
    while (!change_counts(line, &counts, next));
}

/* Sleeps in the line until there is a notification, or until this moment, and leaves it. Returns whether it used a
 * notification. */
static bool park_in_line(call_line *line, const struct timespec *moment) {
    uint64_t counts = __atomic_load_n(&line->counts, __ATOMIC_SEQ_CST);
    bool is_over = false;
    for (;;) {
        const bool is_notified = (uint32_t)counts != 0;
        if (is_notified || is_over) {
            const uint64_t next = is_notified ? counts - 1 : counts - ONE_WAITING;
            if (change_counts(line, &counts, next)) return is_notified;
        } else {
            const long answer = call_futex(&line->counts, FUTEX_WAIT_BITSET, 0, moment);
            ask_processor();
            is_over = answer == -ETIMEDOUT || answer == -EINVAL;
            counts = __atomic_load_n(&line->counts, __ATOMIC_SEQ_CST);
        }
    }
}

static uint64_t clock_moment(void) {
    struct timespec time;
    (void)clock_gettime(CLOCK_MONOTONIC, &time);
    return (uint64_t)time.tv_sec * 1000000000u + (uint64_t)time.tv_nsec;
}

/* The pace of a side, for its calls that wait: when the last wait ended that was longer than its spins, and with the
 * item of which place; whether the side is slow by that, so that its calls park at once; with the item of which place
 * the last wait of all ended that was no longer; and whether the side is quick by that. These are hints: two threads
 * may write them at once. */
typedef struct {
    uint64_t ended, place;
    uint32_t is_slow, is_quick;
    uint64_t last;
} side_pace;

static bool is_slow_side(const side_pace *pace) { return __atomic_load_n(&pace->is_slow, __ATOMIC_RELAXED) != 0; }

/* Notes the end of a wait, with the item of this place. */
static void note_wait(side_pace *pace, uint64_t place) {
    if (VAHEPITO_SPIN_TIME == 0) return;
    const uint64_t ended = clock_moment(), before = __atomic_load_n(&pace->ended, __ATOMIC_RELAXED);
    const uint64_t items = place - __atomic_load_n(&pace->place, __ATOMIC_RELAXED);
    if (before != 0) __atomic_store_n(&pace->is_slow, ended - before > VAHEPITO_PACE * items, __ATOMIC_RELAXED);
    __atomic_store_n(&pace->ended, ended, __ATOMIC_RELAXED);
    __atomic_store_n(&pace->place, place, __ATOMIC_RELAXED);
}

/* Notes the end of a wait that didn't park, with the item of this place. */
static void note_items(side_pace *pace, uint64_t place) {
    const uint64_t items = place - __atomic_load_n(&pace->last, __ATOMIC_RELAXED);
    __atomic_store_n(&pace->is_quick, items >= QUICK_ITEMS, __ATOMIC_RELAXED);
    __atomic_store_n(&pace->last, place, __ATOMIC_RELAXED);
}

/* The hint of a thread that spins: on aarch64 as Rust's std has it. */
static inline void pause_processor(void) {
#if defined(__x86_64__)
    __builtin_ia32_pause();
#elif defined(__aarch64__)
    __asm__ volatile("isb" ::: "memory");
#else
    __asm__ volatile("" ::: "memory");
#endif
}

static void spin_until(uint64_t moment) {
    while ((int64_t)(moment - clock_moment()) > 0) pause_processor();
}

/* How a call passes the time between its looks, before it parks: since when, which is 0 before the first look; the
 * next pause; and how much of the time was over at the last look. */
typedef struct {
    uint64_t begin, pause, spent;
} wait_time;

/* After a look that found nothing: spins, or yields, if the time for it isn't over. Returns whether it isn't. */
static bool pass_time(wait_time *it, uint64_t spins, uint64_t yields) {
    const uint64_t now = clock_moment();
    if (it->begin == 0) it->begin = now;
    const uint64_t spent = it->spent = now - it->begin;
    if (spent < spins) {
        spin_until(now + it->pause);
        it->pause = 2 * it->pause < LONGEST_PAUSE ? 2 * it->pause : LONGEST_PAUSE;
    } else if (spent - spins < yields) {
        (void)sched_yield();
    } else {
        return false;
    }
    return true;
}

/* ---- the queue */

/* A handle, in a line of the cache of its own. */
typedef struct {
    vahepito_handle pass;
} __attribute__((aligned(64))) own_handle;

/* A proved queue of the row. */
typedef struct queue_part {
    struct queue_part *next;
    uint64_t number; /* the first one of all has 0 */
    uint64_t base;   /* how many items the queues before it accepted */
    uint64_t unseen; /* of one that all groups have left: the seats that weren't seen away from it since then */
    own_handle handles[]; /* by seats: the senders, and then the receivers of each group */
} queue_part;

/* A seat, in a line of the cache of its own. `contention` says whether the calls in the seat contend for their side:
 * the moment at which the last call ended that another one answered, or at which a call had let others go ahead, times
 * CONTENTION_MOMENT; the side of that call times CONTENTION_SIDE; and CONTENDS, if that call came at once after another
 * one that was answered so. The call that has the seat writes it. */
typedef struct {
    uintptr_t is_taken; /* 0; or TAKEN; or the address of the queue that its call has found */
    uint64_t contention;
    uint32_t quiet; /* at the ends of how many of its last calls no call was parked */
    uint32_t processor; /* where its call's thread was when it last asked, from 1; 0: it isn't known, or it is parked */
} __attribute__((aligned(64))) call_seat;

/* After this number of calls of a seat at whose ends no call was parked, seats are given back by a store again. */
enum { FORGET_AFTER = 1024 };

enum { TAKEN = 1, CONTENDS = 1, CONTENTION_SIDE = 2, CONTENTION_MOMENT = 32 };

/* A descriptor that is readable while a take of a group, or a send, may find something; or -1. A call that finds
 * nothing arms it, and looks once more; a call that makes something writes into it, if it is armed. */
typedef struct {
    int place;
    uint32_t is_armed;
} side_bell;

struct vahepito_queue {
    vahepito_config config;
    uint32_t groups, words, places; /* how many seats there are: a power of two */
    size_t stride;   /* the bytes of a side's handles in a queue of the row */
    size_t own_mask; /* up to which bytes a seat begins */
    bool has_bound, is_closed, is_closing; /* a close sets `is_closing` before its call, and `is_closed` behind it */
    bool has_bells;   /* whether some bell isn't -1, or some group has left */
    bool has_left[MOST_GROUPS];
    uint32_t special; /* NARROW: some group isn't at the last queue, and there is a bound. WAS_FULL: a send found no
                       * room; so a send looks first */
    queue_part *last, *at[MOST_GROUPS];
    pthread_mutex_t lock;                   /* for `is_closed`, NARROW, and the queues in this and the next lines */
    queue_part *first, *retired; /* those that some group is at, and all behind them; those that are done with */
    queue_part *spare;           /* the one that was opened beforehand, or NULL */
    bool is_opening;             /* whether some send opens the spare one, without the lock */
    side_bell bells[1 + MOST_GROUPS];
    served_line served; /* the calls that are parked until they have an answer or a seat */
    side_pace pace[1 + MOST_GROUPS]; /* of the senders, and of each group */
    call_line senders __attribute__((aligned(64)));
    call_line receivers[MOST_GROUPS] __attribute__((aligned(64)));
    call_seat seats[SEATS];    /* of which `places` are used; the first one has the number 1 */
};

/* The number of a thread, from 1 (0: it has none yet), times the bytes of a seat; and how many threads have one. */
static __thread size_t thread_offset;
static uint32_t thread_count;

static __attribute__((noinline, cold)) void number_thread(void) {
    const uint32_t before = __atomic_fetch_add(&thread_count, 1, __ATOMIC_RELAXED);
    thread_offset = (1 + before % SEATS) * sizeof(call_seat);
}

/* The seat at which this thread looks first, as the bytes from the queue's first one on: by its number, modulo the
 * seats. */
static inline size_t own_offset(const vahepito_queue *queue) {
    if (__builtin_expect(thread_offset == 0, 0)) number_thread();
    return thread_offset & queue->own_mask;
}

static inline call_seat *seat_at(vahepito_queue *queue, size_t own) {
    return (call_seat *)(void *)((char *)queue->seats + own);
}

/* How many items pass between two such questions. */
enum { ASK_EACH = 64 };

/* After the item at this place. */
static inline void ask_at_times(uint64_t place) {
    if (VAHEPITO_PROCESSORS && __builtin_expect(place % ASK_EACH == 0, 0)) ask_processor();
}

/* What a seat says of the thread of its call. */
static inline void note_processor(call_seat *seat, uint32_t processor) {
    if (VAHEPITO_PROCESSORS) __atomic_store_n(&seat->processor, processor, __ATOMIC_RELAXED);
}

/* Whether the thread of another seat was last on this thread's processor. It may have been preempted, and then needs
 * that. */
static bool is_beside_another(const vahepito_queue *queue, const call_seat *own) {
    ask_processor();
    const uint32_t here = thread_processor;
    for (const call_seat *seat = queue->seats; here != 0 && seat < &queue->seats[queue->places]; seat++)
        if (seat != own && __atomic_load_n(&seat->processor, __ATOMIC_RELAXED) == here &&
            __atomic_load_n(&seat->is_taken, __ATOMIC_RELAXED) != 0)
            return true;
    return false;
}

/* How a call waits for its answer, in this seat, or for a seat: it spins, and then parks. */
typedef struct {
    vahepito_queue *queue;
    call_seat *seat; /* NULL if it has none */
    wait_time time;
    bool is_over; /* whether it has spun for long enough */
} served_wait;

/* Before a look of a call that is about to park. A call that ends after this changes `ended`. That is loaded first: an
 * end that takes this call's PARKED away changes it later. */
static uint32_t begin_look(const served_wait *backoff) {
    served_line *const line = &backoff->queue->served;
    if (!backoff->is_over) return 0;
    const uint32_t ended = __atomic_load_n(&line->ended, __ATOMIC_SEQ_CST);
    (void)__atomic_exchange_n(&line->waiting, PARKED, __ATOMIC_SEQ_CST);
    keep_order();
    return ended;
}

/* Until an end wakes the line, or a millisecond is over. Then the thread may run on another processor. */
static void park_for_end(const served_wait *backoff, uint32_t ended) {
    const struct timespec time = {0, 1000000};
    if (backoff->seat) note_processor(backoff->seat, 0);
    (void)call_futex(&backoff->queue->served.ended, FUTEX_WAIT, ended, &time);
    ask_processor();
    if (backoff->seat) note_processor(backoff->seat, thread_processor);
}

/* After a look that found nothing. */
static void end_look(served_wait *backoff, uint32_t ended) {
    if (backoff->is_over) {
        park_for_end(backoff, ended);
    } else {
        const bool is_spent = !pass_time(&backoff->time, VAHEPITO_SERVED_TIME, 0);
        const bool is_late = backoff->time.spent >= OF_A_CALL;
        backoff->is_over = is_spent || (is_late && is_beside_another(backoff->queue, backoff->seat));
    }
}

/* Makes a call, whose code is `code`, again and again while `again` holds, and passes the time in between. The call is
 * in this seat; with NULL it waits for one. */
#define CALL_WHILE(queue, seat, code, call, again)                       \
    do {                                                                 \
        served_wait backoff = {queue, seat, {0, FIRST_PAUSE, 0}, false}; \
        for (;;) {                                                       \
            const uint32_t ended = begin_look(&backoff);                 \
            code = call;                                                 \
            if (!(again)) break;                                         \
            end_look(&backoff, ended);                                   \
        }                                                                \
    } while (0)

/* What a seat says that is taken stays. */
static inline bool try_seat(call_seat *seat) {
    uintptr_t none = 0;
    if (!__atomic_compare_exchange_n(&seat->is_taken, &none, TAKEN, false, __ATOMIC_SEQ_CST, __ATOMIC_SEQ_CST))
        return false;
    note_processor(seat, thread_processor);
    return true;
}

static inline uint32_t seat_number(const vahepito_queue *queue, const call_seat *seat) {
    return 1 + (uint32_t)(seat - queue->seats);
}

/* The number of a seat, or 0 if none is free. A thread whose own seat is taken has met another one with the same. From
 * then on the seat that it finds is its own. */
static uint32_t enter_seat(vahepito_queue *queue) {
    const size_t own = own_offset(queue);
    for (size_t on = 0; on <= queue->own_mask; on += sizeof(call_seat)) {
        call_seat *const seat = seat_at(queue, (own + on) & queue->own_mask);
        if (__atomic_load_n(&seat->is_taken, __ATOMIC_RELAXED) != 0 || !try_seat(seat)) continue;
        thread_offset += on;
        return seat_number(queue, seat);
    }
    return 0;
}

/* The number of a seat, once one is free. */
static __attribute__((noinline)) uint32_t sit_down(vahepito_queue *queue) {
    uint32_t seat;
    CALL_WHILE(queue, NULL, seat, enter_seat(queue), seat == 0);
    return seat;
}

static inline uint32_t served_waiting(const vahepito_queue *queue) {
    return __atomic_load_n(&queue->served.waiting, __ATOMIC_SEQ_CST);
}

/* By an exchange, which waits until the stores of the seat's call are in memory: one of them may have answered a call
 * that is parked. Before an end wakes the line it takes PARKED away. So further ends make no system call while a call
 * that was woken waits for a processor. */
static __attribute__((noinline, cold)) void swap_and_wake(vahepito_queue *queue, call_seat *seat) {
    served_line *const line = &queue->served;
    const uint32_t quiet = served_waiting(queue) != PARKED ? seat->quiet + 1 : 0;
    seat->quiet = quiet % FORGET_AFTER;
    (void)__atomic_exchange_n(&seat->is_taken, 0, __ATOMIC_SEQ_CST);
    keep_order();
    if (served_waiting(queue) == PARKED) {
        (void)__atomic_exchange_n(&line->waiting, WAS_USED, __ATOMIC_SEQ_CST);
        (void)__atomic_fetch_add(&line->ended, 1, __ATOMIC_SEQ_CST);
        (void)call_futex(&line->ended, FUTEX_WAKE, INT_MAX, NULL);
    } else if (quiet == FORGET_AFTER) {
        (void)__atomic_fetch_and(&line->waiting, ~(uint32_t)WAS_USED, __ATOMIC_SEQ_CST);
    }
}

/* Gives a seat back after a call, and wakes the calls that are parked until they have an answer or a seat. */
static inline void give_seat_back(vahepito_queue *queue, call_seat *seat) {
    if (__builtin_expect(served_waiting(queue) != 0, 0)) swap_and_wake(queue, seat);
    else __atomic_store_n(&seat->is_taken, 0, __ATOMIC_RELEASE);
}

static inline void stand_up(vahepito_queue *queue, uint32_t seat) {
    give_seat_back(queue, &queue->seats[seat - 1]);
}

/* ---- contention */

static bool comes_at_once(uint64_t contention, uint32_t side, uint64_t moment) {
    const uint64_t side_before = contention % CONTENTION_MOMENT / CONTENTION_SIDE;
    return side_before == side && moment - contention / CONTENTION_MOMENT < AT_ONCE;
}

/* After a call of this side in this seat that waited for its answer, from this moment on. */
static void note_answered(call_seat *seat, uint32_t side, uint64_t begin) {
    if (VAHEPITO_AHEAD == 0) return;
    const uint64_t before = __atomic_load_n(&seat->contention, __ATOMIC_RELAXED);
    const uint64_t now = clock_moment() * CONTENTION_MOMENT + side * CONTENTION_SIDE;
    __atomic_store_n(&seat->contention, now + comes_at_once(before, side, begin), __ATOMIC_RELAXED);
}

static inline bool seat_contends(const call_seat *seat) {
    return VAHEPITO_AHEAD != 0 && (__atomic_load_n(&seat->contention, __ATOMIC_RELAXED) & CONTENDS) != 0;
}

static __attribute__((noinline, cold)) void go_behind(call_seat *seat, uint32_t side) {
    uint64_t contention = __atomic_load_n(&seat->contention, __ATOMIC_RELAXED) - CONTENDS;
    const uint64_t now = clock_moment();
    if (comes_at_once(contention, side, now)) {
        spin_until(now + VAHEPITO_AHEAD);
        contention = clock_moment() * CONTENTION_MOMENT + side * CONTENTION_SIDE;
    }
    __atomic_store_n(&seat->contention, contention, __ATOMIC_RELAXED);
}

/* Before a call of this side, by a thread whose seat this is and that has no lock. Two threads of a side that call
 * again and again meet at each call, and each waits for the other. So if two calls in a row waited, and the next one
 * comes at once, that one lets the others make some calls alone. */
static inline void let_ahead(call_seat *seat, uint32_t side) {
    if (seat_contends(seat)) go_behind(seat, side);
}

/* The seat at which this thread looks first. */
static inline call_seat *own_seat(vahepito_queue *queue) {
    return seat_at(queue, own_offset(queue));
}

/* The handle that a seat has of a queue: of its sender, or of the receiver of a group from 1. */
static inline vahepito_handle *pass_of(queue_part *part, const vahepito_queue *queue, uint32_t side, uint32_t seat) {
    return &part->handles[side * queue->places + seat - 1].pass;
}

/* The same of the seat at these bytes: a handle has as many as a seat. */
static inline vahepito_handle *own_pass_of(queue_part *part, const vahepito_queue *queue, uint32_t side, size_t own) {
    return (vahepito_handle *)(void *)((char *)part->handles + (side == 0 ? 0 : side * queue->stride) + own);
}

_Static_assert(sizeof(call_seat) == sizeof(own_handle), "a handle has as many bytes as a seat");

_Static_assert(offsetof(vahepito_word_item, sender) == offsetof(vahepito_item, sender) &&
                   offsetof(vahepito_word_item, number) == offsetof(vahepito_item, number),
               "an item of one word begins as an item of words");
_Static_assert(offsetof(vahepito_word_item, body) == offsetof(vahepito_item, count) &&
                   sizeof(size_t) == sizeof(uint64_t),
               "and has its body where that has the count");

static inline queue_part *load_part(queue_part *const *place) {
    queue_part *part;
    __atomic_load(place, &part, __ATOMIC_SEQ_CST);
    return part;
}

/* The queue at this place, by a call in this seat, which says that the call uses that one. */
static inline queue_part *find_part(call_seat *seat, queue_part *const *place) {
    queue_part *const part = load_part(place);
    __atomic_store_n(&seat->is_taken, (uintptr_t)part, __ATOMIC_RELEASE);
    return part;
}

static inline bool row_is_closed(const vahepito_queue *queue) {
    return __atomic_load_n(&queue->is_closed, __ATOMIC_SEQ_CST);
}

static void lock_row(vahepito_queue *queue) { (void)pthread_mutex_lock(&queue->lock); }
static void unlock_row(vahepito_queue *queue) { (void)pthread_mutex_unlock(&queue->lock); }

/* ---- bells */

static void ring_bell(side_bell *bell) {
    const uint64_t one = 1;
    const int errno_before = errno;
    const int place = __atomic_load_n(&bell->place, __ATOMIC_SEQ_CST);
    if (place >= 0) (void)syscall(SYS_write, place, &one, sizeof one);
    errno = errno_before;
}

static __attribute__((noinline, cold)) void ring_if_armed(side_bell *bell) {
    if (__atomic_load_n(&bell->is_armed, __ATOMIC_SEQ_CST) != 0 &&
        __atomic_exchange_n(&bell->is_armed, 0, __ATOMIC_SEQ_CST) != 0)
        ring_bell(bell);
}

/* After a try that found nothing. Returns whether to try again. */
static bool arm_bell(side_bell *bell) {
    uint64_t count;
    const int errno_before = errno, place = __atomic_load_n(&bell->place, __ATOMIC_SEQ_CST);
    if (place < 0) return false;
    (void)syscall(SYS_read, place, &count, sizeof count);
    errno = errno_before;
    (void)__atomic_exchange_n(&bell->is_armed, 1, __ATOMIC_SEQ_CST);
    return true;
}

/* ---- notifications, of which the rare parts are functions of their own */

static __attribute__((noinline, cold)) void ring_for_items(vahepito_queue *queue) {
    for (uint32_t group = 1; group <= queue->groups; group++) ring_if_armed(&queue->bells[group]);
}

/* The same, and takes what groups have that have left: in no seat. */
static void ring_and_skip(vahepito_queue *queue);

/* After a send that was accepted: wakes a receiver of each group. */
static inline void notify_items(vahepito_queue *queue, bool has_seat) {
    keep_order();
    if (has_waiting(&queue->receivers[0])) notify_line(&queue->receivers[0], 1);
    for (uint32_t group = 1; __builtin_expect(group < queue->groups, 0); group++)
        if (has_waiting(&queue->receivers[group])) notify_line(&queue->receivers[group], 1);
    if (__builtin_expect(__atomic_load_n(&queue->has_bells, __ATOMIC_SEQ_CST), 0))
        (has_seat ? ring_for_items : ring_and_skip)(queue);
}

static __attribute__((noinline, cold)) void notify_senders(vahepito_queue *queue) {
    notify_line(&queue->senders, 1);
}
static __attribute__((noinline, cold)) void ring_for_room(vahepito_queue *queue) { ring_if_armed(&queue->bells[0]); }

/* After a take that got an item: wakes a sender. */
static inline void notify_room(vahepito_queue *queue) {
    keep_order();
    if (has_waiting(&queue->senders)) notify_senders(queue);
    if (__builtin_expect(__atomic_load_n(&queue->has_bells, __ATOMIC_SEQ_CST), 0)) ring_for_room(queue);
}

/* After a close: wakes all that wait. A descriptor stays readable then. */
static void notify_all(vahepito_queue *queue) {
    keep_order();
    notify_line(&queue->senders, UINT32_MAX);
    for (uint32_t group = 0; group < queue->groups; group++) notify_line(&queue->receivers[group], UINT32_MAX);
    if (!__atomic_load_n(&queue->has_bells, __ATOMIC_SEQ_CST)) return;
    for (uint32_t group = 0; group <= queue->groups; group++) ring_if_armed(&queue->bells[group]);
}

/* ---- the row */

static void free_part(const vahepito_queue *queue, queue_part *part) {
    for (uint32_t k = 0; k < (1 + queue->groups) * queue->places; k++) (void)vahepito_drop(&part->handles[k].pass);
    free(part);
}

/* A further queue of the row; NULL if there is no memory. */
static queue_part *open_part(vahepito_queue *queue, uint32_t *code) {
    vahepito_handle passes[(1 + MOST_GROUPS) * SEATS];
    const size_t count = (1 + (size_t)queue->groups) * queue->places;
    void *memory = NULL;
    memset(passes, 0, count * sizeof *passes);
    *code = vahepito_open_words(&queue->config, queue->groups, queue->words, passes, queue->places,
                                passes + queue->places, count - queue->places);
    if (*code != VAHEPITO_DONE) return NULL;
    *code = VAHEPITO_NO_MEMORY;
    if (posix_memalign(&memory, 64, sizeof(queue_part) + count * sizeof(own_handle)) != 0) {
        for (size_t k = 0; k < count; k++) (void)vahepito_drop(&passes[k]);
        return NULL;
    }
    *code = VAHEPITO_DONE;
    queue_part *const part = memory;
    part->next = NULL;
    part->number = part->base = part->unseen = 0;
    for (size_t k = 0; k < count; k++) part->handles[k].pass = passes[k];
    return part;
}

/* Whether no call in this seat may use a queue that all groups have left. */
static bool is_away(const call_seat *seat, const queue_part *part) {
    const uintptr_t at = __atomic_load_n(&seat->is_taken, __ATOMIC_SEQ_CST);
    return at != TAKEN && at != (uintptr_t)part;
}

/* Frees the queues that all groups have left, as far as no call may use them. Under the lock. */
static void retire_parts(vahepito_queue *queue) {
    uint64_t least = queue->last->number;
    for (uint32_t group = 0; group < queue->groups; group++)
        if (queue->at[group]->number < least) least = queue->at[group]->number;
    while (queue->first->number < least) {
        queue_part *const part = queue->first;
        queue->first = part->next;
        part->next = queue->retired;
        part->unseen = UINT64_MAX >> (SEATS - queue->places);
        queue->retired = part;
    }
    for (queue_part **place = &queue->retired; *place;) {
        queue_part *const part = *place;
        for (uint32_t seat = 0; seat < queue->places; seat++)
            if (is_away(&queue->seats[seat], part)) part->unseen &= ~((uint64_t)1 << seat);
        if (part->unseen == 0) {
            *place = part->next;
            free_part(queue, part);
        } else {
            place = &part->next;
        }
    }
}

/* Whether all groups are at the last queue. Under the lock. */
static bool is_together(const vahepito_queue *queue) {
    for (uint32_t group = 0; group < queue->groups; group++)
        if (queue->at[group] != queue->last) return false;
    return true;
}

/* How many items a queue has accepted, and how many this group, from 1, has taken of it: looks, by the sender of this
 * seat. */
static uint64_t accepted_count(queue_part *part, const vahepito_queue *queue, uint32_t seat) {
    uint64_t count;
    (void)vahepito_accepted(pass_of(part, queue, 0, seat), &count);
    return count;
}

static uint64_t taken_count(queue_part *part, const vahepito_queue *queue, uint32_t seat, uint32_t group) {
    uint64_t count;
    (void)vahepito_taken(pass_of(part, queue, 0, seat), group, &count);
    return count;
}

/* How many items the row has: how many the slowest group has before it. The last queue's count is loaded first, so that
 * there were as many at that moment. Under the lock, in this seat. */
static uint64_t row_length(const vahepito_queue *queue, uint32_t seat) {
    const uint64_t accepted = queue->last->base + accepted_count(queue->last, queue, seat);
    uint64_t most = 0;
    for (uint32_t group = 1; group <= queue->groups; group++) {
        queue_part *const at = queue->at[group - 1];
        const uint64_t taken = at->base + taken_count(at, queue, seat, group);
        if (taken < accepted && accepted - taken > most) most = accepted - taken;
    }
    return most;
}

/* Closes the last queue, in a seat that it takes. Under the lock. */
static uint32_t close_last(vahepito_queue *queue, uint64_t *total) {
    const uint32_t seat = sit_down(queue);
    vahepito_handle *const pass = pass_of(queue->last, queue, 0, seat);
    uint32_t code, served;
    (void)vahepito_begin_close(pass);
    CALL_WHILE(queue, &queue->seats[seat - 1], code, vahepito_turn_close(pass, total, &served),
               code == VAHEPITO_WAITING);
    *total += queue->last->base;
    stand_up(queue, seat);
    return code;
}

/* Opens the spare queue, without the lock. If memory is refused, the next send that appends a queue tries again. */
static void open_spare(vahepito_queue *queue) {
    const int errno_before = errno;
    uint32_t code;
    queue_part *const part = open_part(queue, &code);
    errno = errno_before;
    lock_row(queue);
    queue->spare = part;
    queue->is_opening = false;
    unlock_row(queue);
}

/* After the queue of this number refused a send: sends continue at the next one, which is appended if that was the
 * last. DONE; CLOSED; NO_MEMORY. */
static __attribute__((noinline)) uint32_t next_for_senders(vahepito_queue *queue, uint64_t number) {
    uint32_t code = VAHEPITO_DONE;
    bool opens_spare = false;
    lock_row(queue);
    if (row_is_closed(queue)) {
        code = VAHEPITO_CLOSED;
    } else if (queue->last->number == number) {
        queue_part *const next = queue->spare ? queue->spare : open_part(queue, &code);
        if (next) {
            queue->spare = NULL;
            (void)close_last(queue, &next->base);
            next->number = number + 1;
            queue->last->next = next;
            if (queue->has_bound) (void)__atomic_fetch_or(&queue->special, NARROW, __ATOMIC_SEQ_CST);
            __atomic_store_n(&queue->last, next, __ATOMIC_SEQ_CST);
            retire_parts(queue);
            opens_spare = !queue->has_bound && !queue->is_opening;
            if (opens_spare) queue->is_opening = true;
        }
    }
    unlock_row(queue);
    if (opens_spare) open_spare(queue);
    return code;
}

/* After a take of this group found the end of the queue of this number: the group continues at the next one. Returns
 * whether there is one. */
static __attribute__((noinline)) bool next_for_group(vahepito_queue *queue, uint32_t group, uint64_t number) {
    bool is_there = true;
    lock_row(queue);
    queue_part *const at = queue->at[group - 1];
    if (at->number == number) {
        is_there = at->next != NULL;
        if (is_there) {
            __atomic_store_n(&queue->at[group - 1], at->next, __ATOMIC_SEQ_CST);
            if (is_together(queue)) (void)__atomic_fetch_and(&queue->special, ~(uint32_t)NARROW, __ATOMIC_SEQ_CST);
            retire_parts(queue);
        }
    }
    unlock_row(queue);
    return is_there;
}

/* ---- sends */

/* A send: its words, whether it may wait for room, and until when; and the place that it gets. */
typedef struct {
    vahepito_queue *queue;
    const uint64_t *words;
    size_t count;
    uint64_t place;
    uint64_t number; /* of the queue that refused it */
} send_request;

/* Whether the counts of this queue say that it was full at a moment at which no close of the row had begun its call:
 * the close is looked for last. The looks are by the sender of this seat, one after the other: that such looks show
 * Full is proved (looks_answer_full of the crate cc_queue). */
static bool is_full_part(const vahepito_queue *queue, queue_part *part, uint32_t seat) {
    const uint64_t accepted = accepted_count(part, queue, seat);
    for (uint32_t group = 1; group <= queue->groups; group++)
        if (taken_count(part, queue, seat, group) + queue->config.capacity <= accepted)
            return !__atomic_load_n(&queue->is_closing, __ATOMIC_SEQ_CST);
    return false;
}

/* After a try of a send at this queue, in this seat, with this code: until it is answered. */
static uint32_t after_send(send_request *it, uint32_t seat, queue_part *part, uint32_t code) {
    vahepito_queue *const queue = it->queue;
    vahepito_handle *const pass = pass_of(part, queue, 0, seat);
    uint32_t served;
    if (code == VAHEPITO_WAITING) {
        const uint64_t begin = VAHEPITO_AHEAD == 0 ? 0 : clock_moment();
        call_seat *const own = &queue->seats[seat - 1];
        CALL_WHILE(queue, own, code, vahepito_turn_send(pass, &it->place, &served), code == VAHEPITO_WAITING);
        note_answered(own, 0, begin);
    }
    if (code == VAHEPITO_ACCEPTED) it->place += part->base;
    else if (code == VAHEPITO_FULL) (void)__atomic_fetch_or(&queue->special, WAS_FULL, __ATOMIC_RELAXED);
    it->number = part->number;
    return code;
}

/* The first call of a send by this sender. */
static inline uint32_t first_send(vahepito_handle *pass, const uint64_t *words, size_t count, uint64_t *place) {
    uint32_t served;
    return count == 1 ? vahepito_try_send(pass, *words, place, &served)
                      : vahepito_try_send_words(pass, words, count, place, &served);
}

/* A send at the last queue, in this seat: after a look at the counts, if there was no room. */
static uint32_t send_by(send_request *it, uint32_t seat, queue_part *part) {
    vahepito_queue *const queue = it->queue;
    if ((__atomic_load_n(&queue->special, __ATOMIC_RELAXED) & WAS_FULL) != 0) {
        if (queue->has_bound && is_full_part(queue, part, seat)) return it->place = 0, VAHEPITO_FULL;
        (void)__atomic_fetch_and(&queue->special, ~(uint32_t)WAS_FULL, __ATOMIC_RELAXED);
    }
    return after_send(it, seat, part, first_send(pass_of(part, queue, 0, seat), it->words, it->count, &it->place));
}

/* The same of this one call, in a seat that it takes. */
static uint32_t seated_send(send_request *it) {
    let_ahead(own_seat(it->queue), 0);
    const uint32_t seat = sit_down(it->queue);
    queue_part *const part = find_part(&it->queue->seats[seat - 1], &it->queue->last);
    uint32_t code = ROW_IS_NARROW;
    if ((__atomic_load_n(&it->queue->special, __ATOMIC_SEQ_CST) & NARROW) == 0) code = send_by(it, seat, part);
    stand_up(it->queue, seat);
    return code;
}

/* A send while the row is narrow, under the lock. NARROW: it isn't any more. */
static uint32_t narrow_send(send_request *it) {
    vahepito_queue *const queue = it->queue;
    uint32_t code = ROW_IS_NARROW;
    lock_row(queue);
    if (row_is_closed(queue)) {
        code = VAHEPITO_CLOSED;
    } else if ((__atomic_load_n(&queue->special, __ATOMIC_SEQ_CST) & NARROW) != 0) {
        const uint32_t seat = sit_down(queue);
        code = VAHEPITO_FULL;
        if (row_length(queue, seat) < queue->config.capacity) code = send_by(it, seat, queue->last);
        stand_up(queue, seat);
    }
    unlock_row(queue);
    return code;
}

/* After a call of a send with this code, the rest of its try: ACCEPTED, FULL, CLOSED, BAD_WORDS, LONG, NO_MEMORY. */
static uint32_t further_send(send_request *it, uint32_t code) {
    for (;;) {
        if (code == ROW_IS_NARROW) code = narrow_send(it);
        if (code == VAHEPITO_WORN || code == VAHEPITO_SPENT || code == VAHEPITO_CLOSED ||
            (code == VAHEPITO_FULL && !it->queue->has_bound))
            code = next_for_senders(it->queue, it->number);
        else if (code != ROW_IS_NARROW)
            return code;
        if (code == VAHEPITO_CLOSED || code == VAHEPITO_NO_MEMORY) return code;
        code = seated_send(it);
    }
}

/* One try of a send. */
static uint32_t attempt_send(send_request *it) { return further_send(it, seated_send(it)); }

/* ---- takes */

/* A take: its group; and the item and the total that it gets. */
typedef struct {
    vahepito_queue *queue;
    uint32_t group;
    vahepito_item *item;
    uint64_t total;
    uint64_t number; /* of the queue that has ended */
} take_request;

/* After a try of a take at this queue, in this seat, with this code: until it is answered. */
static uint32_t after_take(take_request *it, uint32_t seat, queue_part *part, uint32_t code) {
    vahepito_handle *const pass = pass_of(part, it->queue, it->group, seat);
    uint32_t served;
    if (code == VAHEPITO_WAITING) {
        const uint64_t begin = VAHEPITO_AHEAD == 0 ? 0 : clock_moment();
        call_seat *const own = &it->queue->seats[seat - 1];
        CALL_WHILE(it->queue, own, code, vahepito_turn_take_words(pass, it->item, &it->total, &served),
                   code == VAHEPITO_WAITING);
        note_answered(own, it->group, begin);
    }
    if (code == VAHEPITO_GOT) it->item->place += part->base;
    else if (code == VAHEPITO_ENDED) it->total += part->base, it->number = part->number;
    return code;
}

/* The first call of a take by this receiver. An item of one word begins as an item of words does, and has its body
 * where that has the count. */
static inline uint32_t first_take(vahepito_handle *pass, bool is_one, vahepito_item *item, uint64_t *total) {
    uint32_t served;
    if (!is_one) return vahepito_try_take_words(pass, item, total, &served);
    const uint32_t code = vahepito_try_take(pass, (vahepito_word_item *)(void *)item, total, &served);
    if (code == VAHEPITO_GOT)
        item->words[0] = item->count, item->count = 1, item->words[1] = item->words[2] = item->words[3] = 0;
    return code;
}

/* A take at this queue, in this seat. */
static uint32_t take_by(take_request *it, uint32_t seat, queue_part *part) {
    vahepito_handle *const pass = pass_of(part, it->queue, it->group, seat);
    return after_take(it, seat, part, first_take(pass, it->queue->words == 1, it->item, &it->total));
}

/* The same at the queue that the group is at, in a seat that it takes. */
static uint32_t seated_take(take_request *it) {
    let_ahead(own_seat(it->queue), it->group);
    const uint32_t seat = sit_down(it->queue);
    queue_part *const part = find_part(&it->queue->seats[seat - 1], &it->queue->at[it->group - 1]);
    const uint32_t code = take_by(it, seat, part);
    stand_up(it->queue, seat);
    return code;
}

/* After a call of a take with this code, the rest of its try: GOT, EMPTY, ENDED. */
static uint32_t further_take(take_request *it, uint32_t code) {
    for (;;) {
        if (code != VAHEPITO_ENDED || !next_for_group(it->queue, it->group, it->number)) return code;
        code = seated_take(it);
    }
}

/* One try of a take. */
static uint32_t attempt_take(take_request *it) { return further_take(it, seated_take(it)); }

/* Takes all that a group has, which has left or is leaving. */
static void skip_items(vahepito_queue *queue, uint32_t group) {
    vahepito_item item;
    take_request request = {queue, group, &item, 0, 0};
    while (attempt_take(&request) == VAHEPITO_GOT) notify_room(queue);
}

static __attribute__((noinline, cold)) void ring_and_skip(vahepito_queue *queue) {
    ring_for_items(queue);
    for (uint32_t group = 1; group <= queue->groups; group++)
        if (__atomic_load_n(&queue->has_left[group - 1], __ATOMIC_SEQ_CST)) skip_items(queue, group);
}

/* ---- waits */

/* A try, of a send or of a take. */
static uint32_t attempt_call(uint32_t nothing, void *request) {
    return nothing == VAHEPITO_FULL ? attempt_send((send_request *)request)
                                    : attempt_take((take_request *)request);
}

/* The place of the item that a request has sent or taken. */
static uint64_t place_of(uint32_t nothing, const void *request) {
    return nothing == VAHEPITO_FULL ? ((const send_request *)request)->place
                                    : ((const take_request *)request)->item->place;
}

/* Tries again for some time, and spins or yields between the tries, unless the side is slow. */
static uint32_t try_for_some_time(const vahepito_queue *queue, side_pace *pace, void *request, uint32_t nothing) {
    const bool is_quick =
        queue->config.capacity >= QUICK_CAPACITY && __atomic_load_n(&pace->is_quick, __ATOMIC_RELAXED) != 0;
    wait_time time = {0, is_quick ? LONGEST_PAUSE : FIRST_PAUSE, 0};
    uint32_t code = nothing;
    if (VAHEPITO_SPIN_TIME == 0 || is_slow_side(pace)) return nothing;
    while (code == nothing && pass_time(&time, VAHEPITO_SPIN_TIME, VAHEPITO_YIELD_TIME))
        code = attempt_call(nothing, request);
    if (code == nothing) return code;
    note_items(pace, place_of(nothing, request));
    if (clock_moment() - time.begin > VAHEPITO_SPIN_TIME) note_wait(pace, place_of(nothing, request));
    return code;
}

static bool is_past(const struct timespec *moment) {
    struct timespec now;
    (void)clock_gettime(CLOCK_MONOTONIC, &now);
    return now.tv_sec > moment->tv_sec || (now.tv_sec == moment->tv_sec && now.tv_nsec >= moment->tv_nsec);
}

/* Tries until a try finds something, or until this moment; `nothing` is FULL of a send, or EMPTY of a take. A try that
 * finds nothing again costs a look at the counts. */
static uint32_t wait_in_line(vahepito_queue *queue, uint32_t group, void *request, uint32_t nothing,
                             const struct timespec *moment) {
    call_line *const line = group == 0 ? &queue->senders : &queue->receivers[group - 1];
    side_pace *const pace = &queue->pace[group];
    if (moment && is_past(moment)) return nothing;
    uint32_t code = try_for_some_time(queue, pace, request, nothing);
    if (code != nothing) return code;
    do {
        (void)__atomic_fetch_add(&line->counts, ONE_WAITING, __ATOMIC_SEQ_CST);
        keep_order();
        code = attempt_call(nothing, request);
        if (code != nothing) {
            leave_line(line);
        } else {
            if (!park_in_line(line, moment)) return code;
            code = attempt_call(nothing, request);
        }
    } while (code == nothing);
    if (code == VAHEPITO_ACCEPTED || code == VAHEPITO_GOT) note_wait(pace, place_of(nothing, request));
    else notify_line(line, 1);
    return code;
}

static const struct timespec no_wait = {0, 0};

/* After a try that found nothing: waits until this moment, or arms the descriptor and tries once more. */
static __attribute__((noinline)) uint32_t wait_or_arm(vahepito_queue *queue, uint32_t group, void *request,
                                                      uint32_t nothing, const struct timespec *moment) {
    side_bell *const bell = &queue->bells[group];
    uint32_t code;
    if (!moment || moment->tv_sec != 0 || moment->tv_nsec != 0)
        return wait_in_line(queue, group, request, nothing, moment);
    if (!__atomic_load_n(&queue->has_bells, __ATOMIC_SEQ_CST) || !arm_bell(bell)) return nothing;
    code = attempt_call(nothing, request);
    if (code != nothing) ring_if_armed(bell);
    return code;
}

/* The rest of a send whose first try was made in this seat with this code; with seat 0, none was made. */
static __attribute__((noinline)) uint32_t rest_of_send(send_request it, const struct timespec *moment, uint64_t *place,
                                                       uint32_t seat, queue_part *part, uint32_t code) {
    if (seat != 0) {
        code = after_send(&it, seat, part, code);
        stand_up(it.queue, seat);
    } else if (it.count - 1 >= it.queue->words) {
        /* Whether there is room isn't looked at then. */
        code = it.count - 1 < VAHEPITO_MOST_WORDS ? VAHEPITO_LONG : VAHEPITO_BAD_WORDS;
    } else {
        code = seated_send(&it);
    }
    code = further_send(&it, code);
    if (code == VAHEPITO_FULL) code = wait_or_arm(it.queue, 0, &it, VAHEPITO_FULL, moment);
    if (code == VAHEPITO_ACCEPTED) notify_items(it.queue, false);
    if (place) *place = it.place;
    return code;
}

/* A send. Its first try is here, if the thread's own seat is free, and there is nothing special. */
static inline __attribute__((always_inline)) uint32_t send_item(vahepito_queue *queue, const uint64_t *words,
                                                                size_t count, const struct timespec *moment,
                                                                uint64_t *place) {
    const size_t own = own_offset(queue);
    call_seat *const seat = seat_at(queue, own);
    uint32_t code;
    uint64_t number;
    if (__builtin_expect(!seat_contends(seat) && try_seat(seat), 1)) {
        queue_part *const part = find_part(seat, &queue->last);
        if (__builtin_expect(__atomic_load_n(&queue->special, __ATOMIC_SEQ_CST) == 0, 1)) {
            code = first_send(own_pass_of(part, queue, 0, own), words, count, &number);
            if (__builtin_expect(code == VAHEPITO_ACCEPTED, 1)) {
                number += part->base;
                give_seat_back(queue, seat);
                notify_items(queue, false);
                ask_at_times(number);
                if (place) *place = number;
                return VAHEPITO_ACCEPTED;
            }
            return rest_of_send((send_request){queue, words, count, number, 0}, moment, place, seat_number(queue, seat),
                                part, code);
        }
        give_seat_back(queue, seat);
    }
    return rest_of_send((send_request){queue, words, count, 0, 0}, moment, place, 0, NULL, 0);
}

uint32_t vahepito_send(vahepito_queue *queue, uint64_t word, uint64_t *place) {
    return send_item(queue, &word, 1, NULL, place);
}

uint32_t vahepito_send_until(vahepito_queue *queue, uint64_t word, const struct timespec *moment, uint64_t *place) {
    return send_item(queue, &word, 1, moment, place);
}

uint32_t vahepito_send_now(vahepito_queue *queue, uint64_t word, uint64_t *place) {
    return send_item(queue, &word, 1, &no_wait, place);
}

uint32_t vahepito_send_words(vahepito_queue *queue, const uint64_t *words, size_t count, uint64_t *place) {
    return send_item(queue, words, count, NULL, place);
}

uint32_t vahepito_send_words_until(vahepito_queue *queue, const uint64_t *words, size_t count,
                                   const struct timespec *moment, uint64_t *place) {
    return send_item(queue, words, count, moment, place);
}

uint32_t vahepito_send_words_now(vahepito_queue *queue, const uint64_t *words, size_t count, uint64_t *place) {
    return send_item(queue, words, count, &no_wait, place);
}

/* How many calls of a batch are made in one seat. */
enum { IN_ONE_SEAT = 64 };

static inline size_t lesser_of(size_t one, size_t other) { return one < other ? one : other; }

/* Sends words in the thread's own seat, one after another, up to IN_ONE_SEAT of them, until one isn't accepted or the
 * row is narrow. Each one wakes receivers, as a send does. Returns how many were accepted: 0 also if the seat isn't
 * free. */
static size_t send_some(vahepito_queue *queue, const uint64_t *words, size_t count) {
    call_seat *const seat = own_seat(queue);
    const uint32_t own = seat_number(queue, seat);
    size_t at = 0;
    let_ahead(seat, 0);
    if (!try_seat(seat)) return 0;
    queue_part *const part = find_part(seat, &queue->last);
    for (const size_t most = lesser_of(count, IN_ONE_SEAT); at < most; at++) {
        send_request request = {queue, &words[at], 1, 0, 0};
        if ((__atomic_load_n(&queue->special, __ATOMIC_SEQ_CST) & NARROW) != 0) break;
        if (send_by(&request, own, part) != VAHEPITO_ACCEPTED) break;
        notify_items(queue, true);
    }
    give_seat_back(queue, seat);
    if (at > 0 && __atomic_load_n(&queue->has_bells, __ATOMIC_SEQ_CST)) ring_and_skip(queue);
    return at;
}

uint32_t vahepito_send_many(vahepito_queue *queue, const uint64_t *words, size_t count, const struct timespec *moment,
                            size_t *sent) {
    uint32_t code = VAHEPITO_ACCEPTED;
    size_t at = 0;
    while (code == VAHEPITO_ACCEPTED && at < count) {
        const size_t some = send_some(queue, &words[at], count - at);
        at += some;
        if (some == IN_ONE_SEAT || at == count) continue;
        send_request request = {queue, &words[at], 1, 0, 0};
        code = attempt_send(&request);
        if (code == VAHEPITO_FULL) code = wait_or_arm(queue, 0, &request, VAHEPITO_FULL, moment);
        if (code == VAHEPITO_ACCEPTED) at++, notify_items(queue, false);
    }
    if (sent) *sent = at;
    return code;
}

/* The rest of a take whose first try was made in this seat with this code; with seat 0, none was made. */
static __attribute__((noinline)) uint32_t rest_of_take(take_request it, const struct timespec *moment, uint64_t *total,
                                                       uint32_t seat, queue_part *part, uint32_t code) {
    if (code != VAHEPITO_BAD_GROUPS) {
        if (seat != 0) {
            code = after_take(&it, seat, part, code);
            stand_up(it.queue, seat);
        } else {
            code = seated_take(&it);
        }
        code = further_take(&it, code);
        if (code == VAHEPITO_EMPTY) code = wait_or_arm(it.queue, it.group, &it, VAHEPITO_EMPTY, moment);
        if (code == VAHEPITO_GOT) notify_room(it.queue);
    }
    if (code != VAHEPITO_GOT) memset(it.item, 0, sizeof *it.item);
    if (total) *total = it.total;
    return code;
}

/* A take. Its first try is here, if the thread's own seat is free. */
static inline __attribute__((always_inline)) uint32_t take_item(vahepito_queue *queue, uint32_t group,
                                                                vahepito_item *item, const struct timespec *moment,
                                                                uint64_t *total) {
    const size_t own = own_offset(queue);
    call_seat *const seat = seat_at(queue, own);
    uint32_t code = VAHEPITO_BAD_GROUPS;
    vahepito_item unused;
    uint64_t number;
    if (!item) item = &unused;
    if (__builtin_expect(group - 1 < queue->groups, 1)) {
        code = VAHEPITO_EMPTY;
        if (__builtin_expect(!seat_contends(seat) && try_seat(seat), 1)) {
            queue_part *const part = find_part(seat, &queue->at[group - 1]);
            code = first_take(own_pass_of(part, queue, group, own), queue->words == 1, item, &number);
            if (__builtin_expect(code == VAHEPITO_GOT, 1)) {
                item->place += part->base;
                give_seat_back(queue, seat);
                notify_room(queue);
                ask_at_times(item->place);
                if (total) *total = 0;
                return VAHEPITO_GOT;
            }
            return rest_of_take((take_request){queue, group, item, number, 0}, moment, total, seat_number(queue, seat),
                                part, code);
        }
    }
    return rest_of_take((take_request){queue, group, item, 0, 0}, moment, total, 0, NULL, code);
}

uint32_t vahepito_take(vahepito_queue *queue, uint32_t group, vahepito_item *item, uint64_t *total) {
    return take_item(queue, group, item, NULL, total);
}

uint32_t vahepito_take_until(vahepito_queue *queue, uint32_t group, vahepito_item *item, const struct timespec *moment,
                             uint64_t *total) {
    return take_item(queue, group, item, moment, total);
}

uint32_t vahepito_take_now(vahepito_queue *queue, uint32_t group, vahepito_item *item, uint64_t *total) {
    return take_item(queue, group, item, &no_wait, total);
}

/* Takes items in the thread's own seat, one after another, up to IN_ONE_SEAT of them, until there is none. Each one
 * wakes senders, as a take does. Returns how many: 0 also if the seat isn't free. */
static size_t take_some(vahepito_queue *queue, uint32_t group, vahepito_item *items, size_t count) {
    call_seat *const seat = own_seat(queue);
    const uint32_t own = seat_number(queue, seat);
    size_t at = 0;
    let_ahead(seat, group);
    if (!try_seat(seat)) return 0;
    queue_part *const part = find_part(seat, &queue->at[group - 1]);
    for (const size_t most = lesser_of(count, IN_ONE_SEAT); at < most; at++) {
        take_request request = {queue, group, &items[at], 0, 0};
        if (take_by(&request, own, part) != VAHEPITO_GOT) break;
        notify_room(queue);
    }
    give_seat_back(queue, seat);
    return at;
}

uint32_t vahepito_take_many(vahepito_queue *queue, uint32_t group, vahepito_item *items, size_t most,
                            const struct timespec *moment, size_t *count, uint64_t *total) {
    take_request request = {queue, group, items, 0, 0};
    uint32_t code = group - 1 < queue->groups ? VAHEPITO_GOT : VAHEPITO_BAD_GROUPS;
    size_t got = 0;
    while (code == VAHEPITO_GOT && got < most) {
        const size_t some = take_some(queue, group, &items[got], most - got);
        got += some;
        if (some == IN_ONE_SEAT || got == most) continue;
        request.item = &items[got];
        code = attempt_take(&request);
        if (code == VAHEPITO_EMPTY && got == 0) code = wait_or_arm(queue, group, &request, VAHEPITO_EMPTY, moment);
        if (code == VAHEPITO_GOT) got++, notify_room(queue);
    }
    if (got > 0) code = VAHEPITO_GOT;
    else if (code == VAHEPITO_GOT) code = VAHEPITO_EMPTY;
    if (count) *count = got;
    if (total) *total = code == VAHEPITO_ENDED ? request.total : 0;
    return code;
}

/* ---- the queue as a whole */

uint32_t vahepito_close(vahepito_queue *queue, uint64_t *total) {
    uint64_t number = 0;
    lock_row(queue);
    __atomic_store_n(&queue->is_closing, true, __ATOMIC_SEQ_CST);
    const uint32_t code = close_last(queue, &number);
    __atomic_store_n(&queue->is_closed, true, __ATOMIC_SEQ_CST);
    unlock_row(queue);
    notify_all(queue);
    if (total) *total = number;
    return code;
}

/* A send that doesn't find the mark has linked its item before, so that it is found here. */
uint32_t vahepito_leave(vahepito_queue *queue, uint32_t group) {
    bool is_last = true;
    if (group - 1 >= queue->groups) return VAHEPITO_BAD_GROUPS;
    lock_row(queue);
    __atomic_store_n(&queue->has_left[group - 1], true, __ATOMIC_SEQ_CST);
    __atomic_store_n(&queue->has_bells, true, __ATOMIC_SEQ_CST);
    for (uint32_t other = 0; other < queue->groups; other++)
        is_last = is_last && __atomic_load_n(&queue->has_left[other], __ATOMIC_SEQ_CST);
    unlock_row(queue);
    if (is_last) (void)vahepito_close(queue, NULL);
    else skip_items(queue, group);
    return VAHEPITO_DONE;
}

bool vahepito_is_closed(vahepito_queue *queue) {
    lock_row(queue);
    const bool is_closed = row_is_closed(queue);
    unlock_row(queue);
    return is_closed;
}

uint64_t vahepito_length(vahepito_queue *queue) {
    lock_row(queue);
    const uint32_t seat = sit_down(queue);
    const uint64_t length = row_length(queue, seat);
    stand_up(queue, seat);
    unlock_row(queue);
    return length;
}

uint32_t vahepito_capacity(const vahepito_queue *queue) { return queue->has_bound ? queue->config.capacity : 0; }

int vahepito_descriptor(vahepito_queue *queue, uint32_t group) {
    if (group > queue->groups) return errno = EINVAL, -1;
    lock_row(queue);
    side_bell *const bell = &queue->bells[group];
    /* It begins readable: so its first reader tries, finds nothing, and arms it. */
    int place = bell->place;
    if (place < 0 && (place = eventfd(1, EFD_NONBLOCK | EFD_CLOEXEC)) >= 0) {
        __atomic_store_n(&bell->place, place, __ATOMIC_SEQ_CST);
        __atomic_store_n(&queue->has_bells, true, __ATOMIC_SEQ_CST);
    }
    unlock_row(queue);
    return place;
}

static uint32_t value_or(uint32_t number, uint32_t other) { return number ? number : other; }

static void begin_queue(vahepito_queue *queue, const vahepito_attributes *attributes) {
    memset(queue, 0, sizeof *queue);
    queue->has_bound = attributes->capacity != 0;
    queue->config.capacity = value_or(attributes->capacity, FIRST_CAPACITY);
    const uint32_t usual = queue->has_bound ? USUAL_SEATS : UNBOUNDED_SEATS;
    for (queue->places = 1; queue->places < value_or(attributes->places, usual);) queue->places *= 2;
    queue->config.senders = queue->config.receivers = queue->places;
    queue->config.bound = value_or(attributes->bound, 64);
    queue->config.life = attributes->life ? attributes->life : (uint64_t)1 << 48;
    queue->config.per_sender = value_or(attributes->per_sender, UINT32_MAX);
    queue->stride = queue->places * sizeof(own_handle);
    queue->own_mask = (queue->places - 1) * sizeof(call_seat);
    queue->groups = value_or(attributes->groups, 1);
    queue->words = value_or(attributes->words, 1);
    for (uint32_t bell = 0; bell <= MOST_GROUPS; bell++) queue->bells[bell].place = -1;
}

uint32_t vahepito_check_version(uint32_t version) {
    if (version / 1000 != VAHEPITO_VERSION / 1000 || version > VAHEPITO_VERSION) return VAHEPITO_BAD_VERSION;
    return vahepito_check_library();
}

uint32_t vahepito_create_as(const vahepito_attributes *attributes, vahepito_queue **opened) {
    void *memory = NULL;
    uint32_t code;
    *opened = NULL;
    if (vahepito_check_version(attributes->version) != VAHEPITO_DONE) return VAHEPITO_BAD_VERSION;
    if (attributes->places > SEATS) return VAHEPITO_BAD_PLACES;
    if (attributes->groups > MOST_GROUPS) return VAHEPITO_BAD_GROUPS;
    if (posix_memalign(&memory, 64, sizeof(vahepito_queue)) != 0) return VAHEPITO_NO_MEMORY;
    vahepito_queue *const queue = memory;
    begin_queue(queue, attributes);
    queue->first = queue->last = open_part(queue, &code);
    if (!queue->first) return free(queue), code;
    if (pthread_mutex_init(&queue->lock, NULL) != 0)
        return free_part(queue, queue->first), free(queue), VAHEPITO_NO_MEMORY;
    if (!queue->has_bound) queue->config.capacity = FURTHER_CAPACITY;
    for (uint32_t group = 0; group < queue->groups; group++) queue->at[group] = queue->first;
    *opened = queue;
    return VAHEPITO_DONE;
}

vahepito_queue *vahepito_create(uint32_t capacity) {
    vahepito_attributes attributes = VAHEPITO_ATTRIBUTES;
    vahepito_queue *queue;
    attributes.capacity = capacity;
    return vahepito_create_as(&attributes, &queue) == VAHEPITO_DONE ? queue : NULL;
}

/* What each group has left goes to `left`. */
static void drain_row(vahepito_queue *queue, vahepito_leftover *left, void *with) {
    vahepito_item item;
    for (uint32_t group = 1; group <= queue->groups; group++) {
        take_request request = {queue, group, &item, 0, 0};
        while (attempt_take(&request) == VAHEPITO_GOT) left(with, group, &item);
    }
}

void vahepito_destroy(vahepito_queue *queue, vahepito_leftover *left, void *with) {
    if (!queue) return;
    if (left) drain_row(queue, left, with);
    for (queue_part *part = queue->first, *next; part; part = next) next = part->next, free_part(queue, part);
    for (queue_part *part = queue->retired, *next; part; part = next) next = part->next, free_part(queue, part);
    if (queue->spare) free_part(queue, queue->spare);
    for (uint32_t bell = 0; bell <= MOST_GROUPS; bell++)
        if (queue->bells[bell].place >= 0) (void)syscall(SYS_close, queue->bells[bell].place);
    (void)pthread_mutex_destroy(&queue->lock);
    free(queue);
}

bool vahepito_is_done(uint32_t code) {
    return code == VAHEPITO_DONE || code == VAHEPITO_ACCEPTED || code == VAHEPITO_SHUT || code == VAHEPITO_GOT;
}

/* The codes, with their names and sentences; and for any other number the last row. */
#define CODE(name, text) {VAHEPITO_##name, #name, text}
static const struct code_row {
    uint32_t code;
    const char *name, *text;
} code_rows[] = {
    CODE(DONE, "it was done"),
    CODE(BAD_PLACES, "the number of places is not from 1 to 64"),
    CODE(BAD_CAPACITY, "the capacity is not from 1 to 4096"),
    CODE(BAD_BOUND, "the bound is not from 1 to 1024"),
    CODE(BAD_LIFE, "the life is not from 1 to 2^48"),
    CODE(BAD_PER_SENDER, "a place for sends may begin none"),
    CODE(NO_MEMORY, "memory was refused"),
    CODE(ACCEPTED, "the item was accepted"),
    CODE(FULL, "there was no room"),
    CODE(CLOSED, "the queue is closed"),
    CODE(SHUT, "this call closed the queue"),
    CODE(ALREADY, "the queue was closed before"),
    CODE(GOT, "an item was taken"),
    CODE(EMPTY, "there was no item"),
    CODE(ENDED, "the queue is closed, and the group has taken all its items"),
    CODE(BAD_GROUPS, "there is no such group, or there are not 1 to 8"),
    CODE(BAD_VERSION, "the library does not serve this header"),
    CODE(BAD_WORDS, "the number of words is not from 1 to 4"),
    CODE(LONG, "an item of this queue has fewer words"),
    {UINT32_MAX, "no code", "there is no such code"},
};

static const struct code_row *row_of(uint32_t code) {
    const struct code_row *row = code_rows;
    while (row->code != code && row->code != UINT32_MAX) row++;
    return row;
}

const char *vahepito_name(uint32_t code) { return row_of(code)->name; }
const char *vahepito_text(uint32_t code) { return row_of(code)->text; }

struct timespec vahepito_after(uint64_t nanoseconds) {
    struct timespec moment;
    (void)clock_gettime(CLOCK_MONOTONIC, &moment);
    const uint64_t rest = nanoseconds % 1000000000u + (uint64_t)moment.tv_nsec;
    moment.tv_sec += (time_t)(nanoseconds / 1000000000u + rest / 1000000000u);
    moment.tv_nsec = (long)(rest % 1000000000u);
    return moment;
}

/* The first version of the system's `struct sched_attr`. The slice of an ordinary thread is its `runtime`. */
typedef struct {
    uint32_t size, policy;
    uint64_t flags;
    int32_t nice;
    uint32_t priority;
    uint64_t runtime, deadline, period;
} slice_attributes;

int vahepito_lengthen_slice(void) {
    const uint64_t slice = 12000000;
    slice_attributes of_thread;
    memset(&of_thread, 0, sizeof of_thread);
    if (syscall(SYS_sched_getattr, 0, &of_thread, sizeof of_thread, 0) != 0) return -1;
    if (of_thread.policy != SCHED_OTHER && of_thread.policy != 3 /* SCHED_BATCH */) return errno = EINVAL, -1;
    of_thread.runtime = slice;
    if (syscall(SYS_sched_setattr, 0, &of_thread, 0) != 0) return -1;
    /* An earlier system doesn't look at the slice. */
    if (syscall(SYS_sched_getattr, 0, &of_thread, sizeof of_thread, 0) != 0) return -1;
    return of_thread.runtime == slice ? 0 : (errno = EOPNOTSUPP, -1);
}
