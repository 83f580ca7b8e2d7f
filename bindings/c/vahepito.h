/* Vahepito for C: a first-in, first-out queue that threads share, from many senders to many receivers.
 *
 *     vahepito_queue *queue = vahepito_create(64);                  room for 64 items, for all threads
 *     if (vahepito_send(queue, 7, NULL) != VAHEPITO_ACCEPTED) ..    waits for room
 *     vahepito_item item;
 *     if (vahepito_take(queue, 1, &item, NULL) == VAHEPITO_GOT) ..  waits for an item: item.words[0] is 7
 *     vahepito_close(queue, NULL);                                takes come to the end
 *     vahepito_destroy(queue, NULL, NULL);                        after the last call
 *
 * Link libvahepito_queue.a, and after it libvahepito.a and libvahepito_heap.a (memory comes from malloc,
 * posix_memalign, realloc and free). The calls are for Linux: a thread that waits parks on a futex.
 *
 *     call                     waits until
 *     vahepito_send            the item is accepted, or will never be
 *     vahepito_take            there is an item, or the queue has ended
 *     .._until                 the same, or until a moment: then FULL, or EMPTY
 *     .._now                   waits for neither: FULL, or EMPTY, if there is no room or no item now
 *     vahepito_send_words, .._until, .._now        the same sends, of items of several words
 *     vahepito_send_many       all these items are accepted, or until a moment
 *     vahepito_take_many       there is an item, or until a moment; and takes those that are there
 *
 * Receivers form groups. A group gets every item once, by one of its takes; and every group gets every item, from the
 * first one on, at its own pace. A take says for which group it is:
 *
 *                                               group 1
 *                                        .-->  take  take  take     each item to one of these three,
 *     send  send  ..  -->  item item  ---|
 *                                        '-->  take  take  take     and to one of these three
 *                                               group 2
 *
 * An item takes up room until each group has taken it. An item has one to four words of 64 bits.
 *
 * **Waits.** A call spins for a microsecond, yields for four, and then parks. It parks at once if an item has taken
 * more than 20 microseconds since the last wait for the same thing. A parked call takes no
 * processor time; the call that makes room or an item wakes it. Each call, those whose names end in _now too, also
 * waits for its answer while another thread serves its side: it spins for 150 microseconds, and then parks; for 2, if
 * it may have that thread's processor (x86-64; elsewhere for 20 on any). So a thread of high priority lets the thread
 * that it waits for run. A signal ends no wait, and no call is a cancellation point. A
 * moment is one of CLOCK_MONOTONIC, as clock_gettime gives it and vahepito_after computes it; NULL is none. If its
 * nanoseconds aren't from 0 to 999,999,999, it has come.
 *
 * **It isn't used up.** The queue is a row of proved queues. Each of these accepts a number of items; then it is
 * closed, and a further one follows, which takes memory, and for which other sends may wait. If memory is refused, the
 * send returns NO_MEMORY, and may be repeated.
 *
 * Each call takes effect at one moment between its begin and its return. This is proved of the order of the atomic
 * steps of the queues of the row, and of rows that keep the rules of docs/PROVED.md, "A row of queues". Of a FULL by two
 * counts it is proved that the row was full when the first count was read. That this code keeps the rules is tested.
 * That the steps have the order of the clock isn't proved, nor what they do to other memory. Tests look for the
 * following:
 * - A take that begins after a send has returned finds the item, unless another take of its group took it; and a send
 *   that begins after takes have returned finds the room that they made. "After" is by any order that the program has:
 *   on one thread, by a join, a lock, or a flag that is stored with release and loaded with acquire. On x86-64 any flag
 *   will do, and so does the clock.
 * - Memory written before a send is seen after the take of its item. So a word may be a pointer.
 * - Memory written before a close that returns SHUT is seen after a take that returns ENDED, a send that returns
 *   CLOSED, and a close that returns ALREADY.
 * - What a thread reads or writes before a take of the item `place`, in any group, comes before all that another thread
 *   does after the send which is accepted as the item `place` + `capacity`. So a queue may count buffers that are in
 *   use, and a queue of capacity 1 may be a lock: a send takes it, and a take gives it back.
 * The head of handles.h, beside vahepito_queue.c, says which steps order it.
 *
 * **What a word points to** is the sender's until its send returns ACCEPTED, and the receiver's once its take returns
 * GOT. If a send returns another code, the sender keeps it. vahepito_destroy passes the items that are left in the
 * queue to a function of the caller's.
 *
 * The caller must do the following, and nothing checks it:
 * - vahepito_destroy is called once. By then all calls have returned, and no call comes later: by joins, a lock or a
 *   flag.
 * - No pointer is NULL but those that may be, the pointers of one call point to different variables, and of an array
 *   there are as many elements as the count says. Each out-parameter may be NULL but that of vahepito_create_as and the
 *   items of vahepito_take_many. It needs no value before, and is written, with 0 if the code gives it no meaning; of
 *   the items the first `count` are written.
 * - No call is made from a signal handler, or in a forked child of a queue that was opened before the fork, and no
 *   thread is cancelled asynchronously in a call.
 * - malloc, posix_memalign, realloc and free are one allocator's.
 *
 * Names that begin with vahepito_internal_ or VAHEPITO_INTERNAL_ are the headers' own.
 *
 * If the thread sanitizer is on, the calls announce to it what they order: the library isn't built for the sanitizer,
 * which sees none of its steps. With VAHEPITO_VALGRIND defined before this header they announce it to valgrind's
 * helgrind and DRD instead (the file vahepito.supp has the suppressions for these, and needs the option -g of the
 * compiler). With VAHEPITO_UNTOLD nothing is announced.
 */
#ifndef VAHEPITO_H
#define VAHEPITO_H

#include <stdbool.h>
#include <stddef.h>
#include <stdint.h>
#include <time.h>

#ifdef __cplusplus
extern "C" {
#endif

struct timespec;

/* For the compiler: which parameters of a call, from 1, are no NULL; and that its result is to be looked at. */
#if defined(__GNUC__)
#define VAHEPITO_INTERNAL_NO_NULL(...) __attribute__((nonnull(__VA_ARGS__)))
#define VAHEPITO_INTERNAL_LOOK_AT __attribute__((warn_unused_result))
#else
#define VAHEPITO_INTERNAL_NO_NULL(...)
#define VAHEPITO_INTERNAL_LOOK_AT
#endif

/* The version of this header, 0.4.0: a million times the first of its three numbers, a thousand times the second, and
 * the third. */
#define VAHEPITO_VERSION 4000

/* The version of the library, as VAHEPITO_VERSION is that of the header. This call is the same in every version. Any
 * thread may call. */
uint32_t vahepito_version(void);

/* Whether the library serves a header of this version: one with the same first two numbers, and the same third one or
 * an earlier one. A program asks with VAHEPITO_VERSION. vahepito_create_as asks too. Any thread may call.
 * DONE, BAD_VERSION. */
uint32_t vahepito_check_version(uint32_t version) VAHEPITO_INTERNAL_LOOK_AT;

/* A queue, for all threads. */
typedef struct vahepito_queue vahepito_queue;

/* How many words an item has at most. */
#define VAHEPITO_MOST_WORDS 4

/* An item that was taken. */
typedef struct {
    uint64_t place;  /* which of the accepted items it is, from 0 */
    uint32_t sender; /* at which place it was sent, from 1; no thread's number */
    uint32_t number; /* which of the sends at that place it is, from 1, in one queue of the row */
    size_t count;    /* how many words were sent, from 1 */
    uint64_t words[VAHEPITO_MOST_WORDS]; /* the words that were sent, and 0 after them */
} vahepito_item;

/* The codes that calls return. Each call lists its own, and returns it as uint32_t, which has one size for every
 * compiler; the size of an enum depends on the compiler and its options. `switch ((enum vahepito_code)code)` lets the
 * compiler say which codes are missing. */
enum vahepito_code {
    /* it was done */
    VAHEPITO_DONE = 0,

    /* an opening: the first number that is out of its range */
    VAHEPITO_BAD_PLACES = 1,
    VAHEPITO_BAD_CAPACITY = 3,
    VAHEPITO_BAD_BOUND = 4,
    VAHEPITO_BAD_LIFE = 5,
    VAHEPITO_BAD_PER_SENDER = 6,
    /* an opening, a send: memory was refused; nothing has changed */
    VAHEPITO_NO_MEMORY = 7,

    /* the answer of a send */
    VAHEPITO_ACCEPTED = 17, /* the item is the place-th that was accepted, from 0 */
    VAHEPITO_FULL = 18,     /* not accepted: `capacity` items were not known to be taken by every group */
    VAHEPITO_CLOSED = 19,   /* not accepted: the queue was closed */

    /* the answer of a close */
    VAHEPITO_SHUT = 21,    /* this close closed the queue, and `total` items were accepted before it */
    VAHEPITO_ALREADY = 22, /* the queue was closed before, after `total` items */

    /* the answer of a take */
    VAHEPITO_GOT = 23,   /* an item */
    VAHEPITO_EMPTY = 24, /* there was none for its group */
    VAHEPITO_ENDED = 25, /* the queue is closed and its group has taken all of the `total` items */

    /* an opening: the number of groups is not from 1 to 8; a take: there is no such group */
    VAHEPITO_BAD_GROUPS = 26,

    /* an opening: the library doesn't serve this header */
    VAHEPITO_BAD_VERSION = 27,

    /* the number of words is not from 1 to 4: of an opening, or of a send */
    VAHEPITO_BAD_WORDS = 28,
    /* a send: an item of this queue has fewer words; nothing has changed */
    VAHEPITO_LONG = 29
};

/* Whether what a call was for was done: DONE, ACCEPTED, SHUT or GOT. So a code isn't asked as a truth. Any thread may
 * call. */
bool vahepito_is_done(uint32_t code);

/* The name of a code, without VAHEPITO_ before it; and what it says, in a sentence without its full stop. Any thread
 * may call. */
const char *vahepito_name(uint32_t code);
const char *vahepito_text(uint32_t code);

/* What an opening may choose. A program changes fields of VAHEPITO_ATTRIBUTES, which is a queue for 64 items of one
 * word with one group. */
typedef struct {
    uint32_t version;    /* VAHEPITO_VERSION */
    uint32_t capacity;   /* how many items the queue holds at once: 1 to 4096, or 0: any number, as memory allows */
    uint32_t groups;     /* of receivers: 1 to 8; 0 is 1 */
    uint32_t words;      /* how many words an item has at most: 1 to 4; 0 is 1 */
    uint32_t places;     /* how many calls are under way at once, which others wait for: 1 to 64, rounded up to a power
                          * of two; 0 is 16, and 4 of a queue without a bound */
    uint32_t bound;      /* how many waiting calls one call serves before it hands over to the next: 1 to 1024; 0 is 64,
                          * which is right */
    uint32_t per_sender; /* for tests: after how many sends of a place a further queue follows; 0 is 2^32 - 1 */
    uint64_t life;       /* for tests: after how many items a further queue follows: 1 to 2^48; 0 is 2^48 */
} vahepito_attributes;

#define VAHEPITO_ATTRIBUTES {VAHEPITO_VERSION, 64, 1, 1, 0, 0, 0, 0}

/* Opens a queue. Any thread may call.
 * DONE: *queue is the pointer. BAD_VERSION, BAD_PLACES to BAD_PER_SENDER, BAD_GROUPS, BAD_WORDS, NO_MEMORY: *queue is
 * NULL. (Too many places or groups are found first.) */
uint32_t vahepito_create_as(const vahepito_attributes *attributes, vahepito_queue **queue)
    VAHEPITO_INTERNAL_NO_NULL(1, 2) VAHEPITO_INTERNAL_LOOK_AT;

/* Opens a queue of this capacity (0: any number), else as VAHEPITO_ATTRIBUTES says. NULL if it isn't opened. Any thread
 * may call. */
vahepito_queue *vahepito_create(uint32_t capacity) VAHEPITO_INTERNAL_LOOK_AT;

/* Sends an item of one word, and waits for room. Any thread may call, as for all calls below.
 * ACCEPTED with the place. CLOSED: not accepted, and nothing will be. NO_MEMORY: not accepted; a further queue of the
 * row could not be opened. */
uint32_t vahepito_send(vahepito_queue *queue, uint64_t word, uint64_t *place)
    VAHEPITO_INTERNAL_NO_NULL(1) VAHEPITO_INTERNAL_LOOK_AT;

/* The same until this moment. ACCEPTED, CLOSED, NO_MEMORY as above. FULL: the moment has come, and at the last try
 * there was no room. */
uint32_t vahepito_send_until(vahepito_queue *queue, uint64_t word, const struct timespec *moment, uint64_t *place)
    VAHEPITO_INTERNAL_NO_NULL(1) VAHEPITO_INTERNAL_LOOK_AT;

/* The same without a wait for room. ACCEPTED, CLOSED, NO_MEMORY as above. FULL: there is none. */
uint32_t vahepito_send_now(vahepito_queue *queue, uint64_t word, uint64_t *place)
    VAHEPITO_INTERNAL_NO_NULL(1) VAHEPITO_INTERNAL_LOOK_AT;

/* The same three of an item of `count` words, which are copied. ACCEPTED, CLOSED, NO_MEMORY as above. BAD_WORDS, LONG:
 * no such item is sent. */
uint32_t vahepito_send_words(vahepito_queue *queue, const uint64_t *words, size_t count, uint64_t *place)
    VAHEPITO_INTERNAL_NO_NULL(1, 2) VAHEPITO_INTERNAL_LOOK_AT;

/* ACCEPTED, FULL, CLOSED, NO_MEMORY, BAD_WORDS, LONG. */
uint32_t vahepito_send_words_until(vahepito_queue *queue, const uint64_t *words, size_t count,
    const struct timespec *moment, uint64_t *place)
    VAHEPITO_INTERNAL_NO_NULL(1, 2) VAHEPITO_INTERNAL_LOOK_AT;

/* ACCEPTED, FULL, CLOSED, NO_MEMORY, BAD_WORDS, LONG. */
uint32_t vahepito_send_words_now(vahepito_queue *queue, const uint64_t *words, size_t count, uint64_t *place)
    VAHEPITO_INTERNAL_NO_NULL(1, 2) VAHEPITO_INTERNAL_LOOK_AT;

/* Sends `count` items of one word each, one after another, and waits for room until this moment, or not at all if it is
 * {0, 0}. Each item is a send of its own, which wakes receivers, and others' items may come between them.
 * ACCEPTED: all were. FULL, CLOSED, NO_MEMORY: as above, and the first `sent` were accepted. */
uint32_t vahepito_send_many(vahepito_queue *queue, const uint64_t *words, size_t count,
    const struct timespec *moment, size_t *sent)
    VAHEPITO_INTERNAL_NO_NULL(1, 2) VAHEPITO_INTERNAL_LOOK_AT;

/* Takes an item for this group, from 1, and waits until there is one. GOT with the item; ENDED with the total: there
 * will be none any more. BAD_GROUPS: there is no such group. */
uint32_t vahepito_take(vahepito_queue *queue, uint32_t group, vahepito_item *item, uint64_t *total)
    VAHEPITO_INTERNAL_NO_NULL(1) VAHEPITO_INTERNAL_LOOK_AT;

/* The same until this moment. GOT, ENDED, BAD_GROUPS as above. EMPTY: the moment has come, and at the last try there
 * was no item. */
uint32_t vahepito_take_until(vahepito_queue *queue, uint32_t group, vahepito_item *item,
    const struct timespec *moment, uint64_t *total)
    VAHEPITO_INTERNAL_NO_NULL(1) VAHEPITO_INTERNAL_LOOK_AT;

/* The same without a wait for an item. GOT, ENDED, BAD_GROUPS as above. EMPTY: there is none. */
uint32_t vahepito_take_now(vahepito_queue *queue, uint32_t group, vahepito_item *item, uint64_t *total)
    VAHEPITO_INTERNAL_NO_NULL(1) VAHEPITO_INTERNAL_LOOK_AT;

/* Takes up to `most` items, one after another: waits for the first one until this moment, or not at all if it is {0,
 * 0}, and takes those that are there then. Each item wakes a sender. GOT: `count` items, at least one. ENDED, EMPTY,
 * BAD_GROUPS: as above; EMPTY too if `most` is 0. */
uint32_t vahepito_take_many(vahepito_queue *queue, uint32_t group, vahepito_item *items, size_t most,
    const struct timespec *moment, size_t *count, uint64_t *total)
    VAHEPITO_INTERNAL_NO_NULL(1, 3) VAHEPITO_INTERNAL_LOOK_AT;

/* Closes the queue: nothing is accepted after it, and takes come to the end once they have taken what was accepted. All
 * calls that wait are woken. SHUT, ALREADY with the total. */
uint32_t vahepito_close(vahepito_queue *queue, uint64_t *total) VAHEPITO_INTERNAL_NO_NULL(1);

/* The group takes no more: no call of the group is under way or follows, but of vahepito_destroy. Items that
 * the group has not taken, and items that are sent later, take up no room for it: each send takes its item for the
 * group. If no other group is left, this closes the queue, and vahepito_destroy passes on what is left.
 * DONE, BAD_GROUPS. */
uint32_t vahepito_leave(vahepito_queue *queue, uint32_t group) VAHEPITO_INTERNAL_NO_NULL(1);

/* Whether a close has returned, or has had its effect. */
bool vahepito_is_closed(vahepito_queue *queue) VAHEPITO_INTERNAL_NO_NULL(1);

/* How many items the queue holds: those that the slowest group hasn't taken. It was so at some moment of the call, but
 * for items of calls that are under way. */
uint64_t vahepito_length(vahepito_queue *queue) VAHEPITO_INTERNAL_NO_NULL(1);

/* How many items the queue holds at most; 0: any number. */
uint32_t vahepito_capacity(const vahepito_queue *queue) VAHEPITO_INTERNAL_NO_NULL(1);

/* A file descriptor for poll, select and epoll, which is readable while a take for this group may find something, or
 * the end; of group 0: while a send may find room, or the close. Once it is readable call vahepito_take_now
 * (vahepito_send_now) until that returns EMPTY (FULL), which makes it unreadable. The descriptor is the queue's, is one
 * for each group, and is closed by vahepito_destroy; nothing is read from it, and nothing written. -1 with errno:
 * EINVAL, there is no such group; otherwise as of eventfd. */
int vahepito_descriptor(vahepito_queue *queue, uint32_t group) VAHEPITO_INTERNAL_NO_NULL(1) VAHEPITO_INTERNAL_LOOK_AT;

/* What an item that is left in a queue is given to, with its group. */
typedef void vahepito_leftover(void *with, uint32_t group, const vahepito_item *item);

/* Frees a queue, once all calls have returned. Before that it gives each item that a group hasn't taken to `left`, for
 * this group, in order. `left` may be NULL: then what the words of such items point to isn't freed. Of NULL nothing is
 * freed. */
void vahepito_destroy(vahepito_queue *queue, vahepito_leftover *left, void *with);

/* The moment that comes after these nanoseconds. */
struct timespec vahepito_after(uint64_t nanoseconds);

/* Lets the calling thread, and threads that it starts later, keep a processor for 12 milliseconds before another thread
 * gets it; Linux gives them about 3. A call is long if the thread that serves its side loses its processor, and with
 * this fewer do. Others pay for it: a thread that gets ready on such a processor, another program's too, may wait up to
 * 12 milliseconds for it. It needs Linux 6.12 or later, and no privilege. 0; or -1 with errno, and the slice is as
 * before: EOPNOTSUPP, the system doesn't know slices; EINVAL, the thread has another policy than SCHED_OTHER and
 * SCHED_BATCH; otherwise as of sched_setattr. */
int vahepito_lengthen_slice(void);

/* Announcements to the thread sanitizer, or to helgrind and DRD, of what the head of this file says of memory. */
#if defined(VAHEPITO_UNTOLD)
#elif defined(VAHEPITO_VALGRIND) || defined(__SANITIZE_THREAD__)
#define VAHEPITO_TOLD 1
#elif defined(__has_feature)
#if __has_feature(thread_sanitizer)
#define VAHEPITO_TOLD 1
#endif
#endif

#if defined(VAHEPITO_TOLD)
#if defined(VAHEPITO_VALGRIND)
/* A request to valgrind, which needs none of its headers. On a processor it does nothing. */
static inline void vahepito_internal_request(uint64_t request, const void *address) {
    volatile uint64_t words[6] = {request, (uintptr_t)address, 0, 0, 0, 0};
#if defined(__x86_64__)
    uint64_t answer = 0;
    __asm__ volatile("rolq $3, %%rdi; rolq $13, %%rdi; rolq $61, %%rdi; rolq $51, %%rdi; xchgq %%rbx, %%rbx"
                     : "+d"(answer) : "a"(&words[0]) : "cc", "memory");
#elif defined(__aarch64__)
    __asm__ volatile("mov x3, #0; mov x4, %0; ror x12, x12, #3; ror x12, x12, #13; ror x12, x12, #51; ror x12, x12, "
                     "#61; orr x10, x10, x10"
                     :
                     : "r"(&words[0])
                     : "cc", "memory", "x3", "x4");
#endif
    (void)words;
}
static inline void vahepito_internal_release(void *address) { vahepito_internal_request(0x48470121, address); }
static inline void vahepito_internal_acquire(void *address) { vahepito_internal_request(0x48470122, address); }
#else
void __tsan_acquire(void *address);
void __tsan_release(void *address);
static inline void vahepito_internal_release(void *address) { __tsan_release(address); }
static inline void vahepito_internal_acquire(void *address) { __tsan_acquire(address); }
#endif

/* What calls order: an item from its send to its take, the room that a take of group 1 to 8 makes, or the end. */
#define VAHEPITO_INTERNAL_ITEM 0
#define VAHEPITO_INTERNAL_END 9

/* Before a call its caller doesn't know the item's place. So the call is announced twice: at its begin, under its
 * queue, its kind and the words of a send; and once it is done, under the opening of its queue, its kind and its place,
 * with a mark. A call that it comes before finds the mark, and learns of this one call; or if there is no mark yet, of
 * all that were begun. Each table is one for all files of a program. */
#define VAHEPITO_INTERNAL_SLOTS 16384
__attribute__((weak)) uint64_t vahepito_internal_begun[VAHEPITO_INTERNAL_SLOTS],
    vahepito_internal_done[VAHEPITO_INTERNAL_SLOTS];
__attribute__((weak)) uint64_t vahepito_internal_marks[VAHEPITO_INTERNAL_SLOTS];
/* The queues that are open: the number of an opening in the upper 16 bits, below it the queue's pointer, or its
 * capacity and groups. */
__attribute__((weak)) uint64_t vahepito_internal_opened[VAHEPITO_INTERNAL_SLOTS],
    vahepito_internal_shapes[VAHEPITO_INTERNAL_SLOTS];
__attribute__((weak)) uint64_t vahepito_internal_openings;

static inline uint64_t vahepito_internal_mix(uint64_t hash, uint64_t word) {
    hash = (hash ^ word) * UINT64_C(0x9e3779b97f4a7c15);
    return hash ^ hash >> 32;
}

static inline uint64_t vahepito_internal_key(uint64_t of, uint64_t kind, uint64_t about) {
    return vahepito_internal_mix(vahepito_internal_mix(vahepito_internal_mix(0, of), kind), about);
}

static inline void *vahepito_internal_begun_at(const void *queue, uint64_t kind, uint64_t about) {
    return &vahepito_internal_begun[vahepito_internal_key((uintptr_t)queue, kind, about) % VAHEPITO_INTERNAL_SLOTS];
}

static inline uint64_t vahepito_internal_hash(const uint64_t *words, size_t count) {
    uint64_t hash = count;
    for (size_t at = 0; at < count && count <= VAHEPITO_MOST_WORDS; at++) hash = vahepito_internal_mix(hash, words[at]);
    return hash;
}

/* The opening of a queue, 0 if it isn't known; and the queue's capacity, in the upper half, and its groups. */
static inline uint64_t vahepito_internal_opening(const void *queue, uint64_t *shape) {
    const size_t at = vahepito_internal_key((uintptr_t)queue, 0, 0) % VAHEPITO_INTERNAL_SLOTS;
    const uint64_t opened = __atomic_load_n(&vahepito_internal_opened[at], __ATOMIC_RELAXED);
    const uint64_t found = __atomic_load_n(&vahepito_internal_shapes[at], __ATOMIC_RELAXED);
    *shape = found << 16 >> 16;
    return (opened ^ (uintptr_t)queue) << 16 == 0 && opened >> 48 == found >> 48 ? opened : 0;
}

static inline void vahepito_internal_open(const void *queue, uint64_t capacity, uint64_t groups) {
    const size_t at = vahepito_internal_key((uintptr_t)queue, 0, 0) % VAHEPITO_INTERNAL_SLOTS;
    const uint64_t number = __atomic_fetch_add(&vahepito_internal_openings, 1, __ATOMIC_RELAXED) % 65535 + 1;
    __atomic_store_n(&vahepito_internal_shapes[at], number << 48 | capacity << 32 | groups, __ATOMIC_RELAXED);
    __atomic_store_n(&vahepito_internal_opened[at], number << 48 | (uint64_t)(uintptr_t)queue << 16 >> 16,
                     __ATOMIC_RELAXED);
}

static inline void vahepito_internal_forget(const void *queue) {
    uint64_t shape;
    if (vahepito_internal_opening(queue, &shape))
        __atomic_store_n(
            &vahepito_internal_opened[vahepito_internal_key((uintptr_t)queue, 0, 0) % VAHEPITO_INTERNAL_SLOTS], 0,
            __ATOMIC_RELAXED);
}

/* Before a call. */
static inline void vahepito_internal_begins(const void *queue, uint64_t kind, uint64_t about) {
    vahepito_internal_release(vahepito_internal_begun_at(queue, kind, about));
}

/* After a call that was done at this place. */
static inline void vahepito_internal_was_done(const void *queue, uint64_t kind, uint64_t place) {
    uint64_t shape;
    const uint64_t opening = vahepito_internal_opening(queue, &shape),
                   key = vahepito_internal_key(opening, kind, place);
    if (opening == 0) return;
    vahepito_internal_release(&vahepito_internal_done[key % VAHEPITO_INTERNAL_SLOTS]);
    __atomic_store_n(&vahepito_internal_marks[key % VAHEPITO_INTERNAL_SLOTS], key, __ATOMIC_RELAXED);
}

/* After a call that comes after the one of this kind at this place. */
static inline void vahepito_internal_comes_after(const void *queue, uint64_t kind, uint64_t about, uint64_t place) {
    uint64_t shape;
    const uint64_t opening = vahepito_internal_opening(queue, &shape),
                   key = vahepito_internal_key(opening, kind, place);
    if (opening != 0 &&
        __atomic_load_n(&vahepito_internal_marks[key % VAHEPITO_INTERNAL_SLOTS], __ATOMIC_RELAXED) == key)
        vahepito_internal_acquire(&vahepito_internal_done[key % VAHEPITO_INTERNAL_SLOTS]);
    else
        vahepito_internal_acquire(vahepito_internal_begun_at(queue, kind, about));
}

/* After a send or a close. */
static inline uint32_t vahepito_internal_answered(const void *queue, uint32_t code, uint64_t place) {
    if (code == VAHEPITO_CLOSED || code == VAHEPITO_ALREADY)
        vahepito_internal_acquire(vahepito_internal_begun_at(queue, VAHEPITO_INTERNAL_END, 0));
    if (code == VAHEPITO_ACCEPTED) {
        uint64_t shape;
        const uint64_t opening = vahepito_internal_opening(queue, &shape), groups = opening ? shape & 15 : 8,
                       capacity = shape >> 32;
        vahepito_internal_was_done(queue, VAHEPITO_INTERNAL_ITEM, place);
        for (uint64_t group = 1; group <= groups && (opening == 0 || (capacity != 0 && place >= capacity)); group++)
            vahepito_internal_comes_after(queue, group, 0, place - capacity);
    }
    return code;
}

/* After a take. */
static inline uint32_t vahepito_internal_took(const void *queue, uint32_t group, uint32_t code,
                                              const vahepito_item *item) {
    if (code == VAHEPITO_ENDED) vahepito_internal_acquire(vahepito_internal_begun_at(queue, VAHEPITO_INTERNAL_END, 0));
    if (code == VAHEPITO_GOT) {
        vahepito_internal_comes_after(queue, VAHEPITO_INTERNAL_ITEM, vahepito_internal_hash(item->words, item->count),
                                      item->place);
        vahepito_internal_was_done(queue, group, item->place);
    }
    return code;
}

static inline uint32_t vahepito_internal_create_as(const vahepito_attributes *attributes, vahepito_queue **queue) {
    const uint32_t code = vahepito_create_as(attributes, queue);
    if (code == VAHEPITO_DONE)
        vahepito_internal_open(*queue, attributes->capacity, attributes->groups ? attributes->groups : 1);
    return code;
}

static inline vahepito_queue *vahepito_internal_create(uint32_t capacity) {
    vahepito_queue *const queue = vahepito_create(capacity);
    if (queue) vahepito_internal_open(queue, capacity, 1);
    return queue;
}

#define VAHEPITO_INTERNAL_SENDS(words, count, call)                                                     \
    uint64_t number;                                                                                    \
    vahepito_internal_begins(queue, VAHEPITO_INTERNAL_ITEM, vahepito_internal_hash(words, count));      \
    const uint32_t code = call;                                                                         \
    if (place) *place = number;                                                                         \
    return vahepito_internal_answered(queue, code, number)

static inline uint32_t vahepito_internal_send(vahepito_queue *queue, uint64_t word, uint64_t *place) {
    VAHEPITO_INTERNAL_SENDS(&word, 1, vahepito_send(queue, word, &number));
}

static inline uint32_t vahepito_internal_send_until(vahepito_queue *queue, uint64_t word, const struct timespec *moment,
                                                    uint64_t *place) {
    VAHEPITO_INTERNAL_SENDS(&word, 1, vahepito_send_until(queue, word, moment, &number));
}

static inline uint32_t vahepito_internal_send_now(vahepito_queue *queue, uint64_t word, uint64_t *place) {
    VAHEPITO_INTERNAL_SENDS(&word, 1, vahepito_send_now(queue, word, &number));
}

static inline uint32_t vahepito_internal_send_words(vahepito_queue *queue, const uint64_t *words, size_t count,
                                                    uint64_t *place) {
    VAHEPITO_INTERNAL_SENDS(words, count, vahepito_send_words(queue, words, count, &number));
}

static inline uint32_t vahepito_internal_send_words_until(vahepito_queue *queue, const uint64_t *words, size_t count,
                                                          const struct timespec *moment, uint64_t *place) {
    VAHEPITO_INTERNAL_SENDS(words, count, vahepito_send_words_until(queue, words, count, moment, &number));
}

static inline uint32_t vahepito_internal_send_words_now(vahepito_queue *queue, const uint64_t *words, size_t count,
                                                        uint64_t *place) {
    VAHEPITO_INTERNAL_SENDS(words, count, vahepito_send_words_now(queue, words, count, &number));
}

/* A batch doesn't return its places: so its items come after all takes that were begun. */
static inline uint32_t vahepito_internal_send_many(vahepito_queue *queue, const uint64_t *words, size_t count,
                                                   const struct timespec *moment, size_t *sent) {
    size_t done = 0;
    for (size_t at = 0; at < count; at++)
        vahepito_internal_begins(queue, VAHEPITO_INTERNAL_ITEM, vahepito_internal_hash(&words[at], 1));
    const uint32_t code = vahepito_send_many(queue, words, count, moment, &done);
    for (uint64_t group = 1; group <= 8 && done > 0; group++)
        vahepito_internal_acquire(vahepito_internal_begun_at(queue, group, 0));
    if (sent) *sent = done;
    return code == VAHEPITO_CLOSED ? vahepito_internal_answered(queue, code, 0) : code;
}

#define VAHEPITO_INTERNAL_TAKES(call)                       \
    vahepito_item got;                                      \
    vahepito_internal_begins(queue, group, 0);              \
    const uint32_t code = call;                             \
    if (item) *item = got;                                  \
    return vahepito_internal_took(queue, group, code, &got)

static inline uint32_t vahepito_internal_take(vahepito_queue *queue, uint32_t group, vahepito_item *item,
                                              uint64_t *total) {
    VAHEPITO_INTERNAL_TAKES(vahepito_take(queue, group, &got, total));
}

static inline uint32_t vahepito_internal_take_until(vahepito_queue *queue, uint32_t group, vahepito_item *item,
                                                    const struct timespec *moment, uint64_t *total) {
    VAHEPITO_INTERNAL_TAKES(vahepito_take_until(queue, group, &got, moment, total));
}

static inline uint32_t vahepito_internal_take_now(vahepito_queue *queue, uint32_t group, vahepito_item *item,
                                                  uint64_t *total) {
    VAHEPITO_INTERNAL_TAKES(vahepito_take_now(queue, group, &got, total));
}

static inline uint32_t vahepito_internal_take_many(vahepito_queue *queue, uint32_t group, vahepito_item *items,
                                                   size_t most, const struct timespec *moment, size_t *count,
                                                   uint64_t *total) {
    size_t got = 0;
    vahepito_internal_begins(queue, group, 0);
    const uint32_t code = vahepito_take_many(queue, group, items, most, moment, &got, total);
    for (size_t at = 0; at < got; at++) (void)vahepito_internal_took(queue, group, VAHEPITO_GOT, &items[at]);
    if (count) *count = got;
    return got > 0 ? code : vahepito_internal_took(queue, group, code, NULL);
}

static inline uint32_t vahepito_internal_close(vahepito_queue *queue, uint64_t *total) {
    vahepito_internal_begins(queue, VAHEPITO_INTERNAL_END, 0);
    return vahepito_internal_answered(queue, vahepito_close(queue, total), 0);
}

static inline void vahepito_internal_destroy(vahepito_queue *queue, vahepito_leftover *left, void *with) {
    vahepito_internal_forget(queue);
    vahepito_destroy(queue, left, with);
}

#undef VAHEPITO_INTERNAL_SENDS
#undef VAHEPITO_INTERNAL_TAKES
#define vahepito_create_as vahepito_internal_create_as
#define vahepito_create vahepito_internal_create
#define vahepito_send vahepito_internal_send
#define vahepito_send_until vahepito_internal_send_until
#define vahepito_send_now vahepito_internal_send_now
#define vahepito_send_words vahepito_internal_send_words
#define vahepito_send_words_until vahepito_internal_send_words_until
#define vahepito_send_words_now vahepito_internal_send_words_now
#define vahepito_send_many vahepito_internal_send_many
#define vahepito_take vahepito_internal_take
#define vahepito_take_until vahepito_internal_take_until
#define vahepito_take_now vahepito_internal_take_now
#define vahepito_take_many vahepito_internal_take_many
#define vahepito_close vahepito_internal_close
#define vahepito_destroy vahepito_internal_destroy
#endif

#ifdef __cplusplus
}
#endif

#endif
