/* The exports of the proved library, which vahepito_queue.c and the Rust crate call: a queue whose calls are made by
 * handles. This header isn't for programs: a program in C has vahepito.h.
 *
 * Link libvahepito.a, and after it libvahepito_heap.a (memory comes from malloc, posix_memalign, realloc and free).
 *
 * A pass is one sender or one receiver of one queue, and it is held by a handle, a vahepito_handle. Passes are not
 * copied and not shared by two threads at once: a queue has as many as its configuration says, all given by its
 * opening.
 *
 * A body has one to four words of 64 bits, and at most as many as the opening of its queue says. If that is more than
 * one, its items are taken by the calls alone whose names end in _words. vahepito_try_send sends one word in each
 * queue.
 *
 * A call is begun, and then asked for its answer in turns. Turn every begun call to its end: if it is abandoned, or its
 * handle dropped, no pass of its side may get an answer any more. No call but the opening takes memory. The turn that
 * finds its place first in line serves other calls too, at most `bound` of them.
 *
 * Tests alone call vahepito_begin_send_words and vahepito_begin_take: a thread that begins calls of several passes, and
 * then turns them, decides which call serves which.
 *
 * Each call takes effect at one moment between its begin and its return: this is proved of the order of the queue's
 * atomic steps. It is proved too that the calls of one pass come in the order in which they are made.
 * Of memory no clause says this. It holds because of these steps, of which each stores on the left what is loaded on
 * the right (docs/ARCHITECTURE.md has them):
 *     the caller stores the link to its request           the call that serves it loads the link
 *     a send links its item, a close its mark             a take loads the link: it gets the item, or ENDED
 *     a close stores `shut`                               a send or a close loads it: CLOSED, ALREADY
 *     a take adds one to `passed` of the item before      a send loads `passed` when it reuses that memory: ACCEPTED
 *     the call that serves stores that there is an answer the caller loads this, and returns
 * In the strict archive all of them are sequentially consistent (on aarch64 `stlr`, `ldar`, and `ldaxr` with `stlxr`),
 * so that a store synchronises with the load that finds it. In the default archive some of the stores are release
 * stores, which synchronise too; those of x86-64 become visible in the order of the program.
 * A begun call waits for at most one service and three steps of itself and of each call of its kind before it, one
 * further service, and six steps of each handle of its kind. Then it may serve `bound` calls itself. This is proved, in
 * rounds in which each of these threads makes a step: no other thread can hold a call up. That the system runs these
 * threads isn't.
 *
 * The caller must do the following, and nothing checks it:
 * - A handle begins as VAHEPITO_HANDLE_EMPTY, or all zero, and is filled by the opening alone. Its bytes are neither
 *   changed nor copied to a second handle that is used; a handle may be moved to another place, and the old place is
 *   then not used.
 * - A handle is given to one call at a time. It may go to another thread: by a mutex, a thread's start or join, or a
 *   sequentially consistent atomic. Different handles may be used by different threads at once, of one queue or of
 *   many.
 * - No pointer is NULL, every out-parameter is an initialised variable, the pointers of one call point to different
 *   variables, and of an array there are as many elements as the count says.
 * - No call is made from a signal handler, or in a forked child of a queue that was opened before the fork.
 *
 * Every call writes its out-parameters, with 0 in each field that its code gives no meaning.
 *
 * The library must serve this header: vahepito_check_library checks it, before the first opening. */
#ifndef VAHEPITO_HANDLES_H
#define VAHEPITO_HANDLES_H

#include "vahepito.h"

#ifdef __cplusplus
extern "C" {
#endif

/* The configuration of a queue. The bytes after per_sender are not read. */
typedef struct {
    uint32_t senders;    /* 1 to 64: places for sends and closes */
    uint32_t receivers;  /* 1 to 64: places for takes, in each group */
    uint32_t capacity;   /* 1 to 4096: how many items the queue holds at once */
    uint32_t bound;      /* 1 to 1024: how many calls one turn serves at most: 64 does for all (below) */
    uint64_t life;       /* 1 to 2^48: how many items it accepts in all */
    uint32_t per_sender; /* 1 to 2^32 - 1: how many sends are begun at one place at most */
} vahepito_config;

/* The bound is the greatest number of waiting calls of its kind (sends and closes, or takes of one group) that one
 * thread serves in a row, before it hands over to the next in line. If it is below half of the places, and there
 * are more threads than processors, the next is often a thread that doesn't run at the moment, and all other calls of
 * its kind wait until it does. 64 is right for every queue, as no kind has more places. The higher it is, the more
 * calls one call may serve before it returns; with 1 a call serves only its own. */

/* A handle. */
typedef struct {
    void *at;
    bool live;
} vahepito_handle;

#define VAHEPITO_HANDLE_EMPTY {NULL, false}

/* The codes that these calls have beside those of vahepito.h. */
enum {
    /* the opening: the number of senders (which is of `places` in vahepito.h), or of receivers, is out of its range */
    VAHEPITO_BAD_SENDERS = VAHEPITO_BAD_PLACES,
    VAHEPITO_BAD_RECEIVERS = 2,

    /* the opening: not one handle for each pass, or one that is not empty */
    VAHEPITO_BAD_HANDLES = 8,

    /* the call could not be made, and nothing has changed */
    VAHEPITO_NO_PASS = 9,     /* the handle is empty */
    VAHEPITO_WRONG_SIDE = 10, /* a call of the other side */
    VAHEPITO_BUSY = 11,       /* the pass has a call that was begun */
    VAHEPITO_NOT_BEGUN = 12,  /* a turn: the pass has no such call */
    VAHEPITO_WORN = 13,       /* the sender has begun as many sends as it may */

    /* on the way */
    VAHEPITO_BEGUN = 14,   /* the call was begun */
    VAHEPITO_WAITING = 15, /* its answer is not there yet: turn again */

    /* the answer of a send */
    VAHEPITO_SPENT = 20, /* not accepted: the queue has accepted `life` items */

    /* a take of an item of one word, in a queue whose items may have more */
    VAHEPITO_WIDE = 30
};

/* An item of one word that was taken. */
typedef struct {
    uint64_t place;  /* which of the accepted items it is, from 0 */
    uint32_t sender; /* whose, from 1 */
    uint32_t number; /* which of its sender's sends, from 1 */
    uint64_t body;   /* what was sent */
} vahepito_word_item;

/* How many bytes a vahepito_config, a vahepito_handle, an item of one word (of the Rust crate alone) and a
 * vahepito_item have for the library. Only a library with this header's first two numbers may be asked. Any thread may
 * call. */
void vahepito_sizes(size_t *config, size_t *pass, size_t *item, size_t *words_item);

/* Whether the library that is linked serves this header. A library serves the headers of its own version, and of those
 * with the same first two numbers and an earlier third one: so a later patch may come in its place. The sizes above
 * have to be the same. A program asks once, before its first opening; if this is BAD_VERSION, it makes no other call
 * but these above. Any thread may call.
 * DONE, BAD_VERSION. */
static inline uint32_t vahepito_check_library(void) {
    size_t config = 0, pass = 0, item = 0, words_item = 0;
    const uint32_t version = vahepito_version();
    if (version / 1000 != VAHEPITO_VERSION / 1000 || version < VAHEPITO_VERSION) return VAHEPITO_BAD_VERSION;
    vahepito_sizes(&config, &pass, &item, &words_item);
    return config == sizeof(vahepito_config) && pass == sizeof(vahepito_handle) && item == sizeof(vahepito_word_item) &&
                   words_item == sizeof(vahepito_item)
               ? VAHEPITO_DONE
               : VAHEPITO_BAD_VERSION;
}

/* Opens a queue of this number of groups, 1 to 8, with config->receivers receivers in each, whose bodies have at most
 * this number of words, 1 to 4, and fills the handles: senders[k] becomes sender k + 1, receivers[k] receiver k + 1,
 * which is of group k / config->receivers + 1. So there are groups * config->receivers handles of receivers. The
 * handles are the caller's, all of them empty before; they share the queue, and the last one that is dropped frees it.
 * If a body may have more than one word, the calls for items of one word return WIDE. Any thread may call.
 * DONE; BAD_SENDERS to BAD_PER_SENDER, then BAD_GROUPS, then BAD_WORDS, then BAD_HANDLES, then NO_MEMORY: no handle was
 * changed. */
uint32_t vahepito_open_words(const vahepito_config *config, uint32_t groups, uint32_t words, vahepito_handle *senders,
                             size_t sender_count, vahepito_handle *receivers, size_t receiver_count);

/* Begins a send of `count` words, which are copied. The thread that holds the handle calls.
 * BEGUN: turn it. NO_PASS, WRONG_SIDE, BUSY, then BAD_WORDS, LONG, then WORN: nothing has changed. */
uint32_t vahepito_begin_send_words(vahepito_handle *sender, const uint64_t *words, size_t count);

/* One turn of a send, of one word or of several. The thread that holds the handle calls.
 * ACCEPTED with the place, FULL, CLOSED, SPENT: the sender is idle again, and this turn served `served` calls (0 if
 * another pass served it). WAITING: turn again. NO_PASS, WRONG_SIDE, NOT_BEGUN: nothing has changed. */
uint32_t vahepito_turn_send(vahepito_handle *sender, uint64_t *place, uint32_t *served);

/* Begins a send of this body, and turns it once: the codes of both. After WAITING continue with vahepito_turn_send. The
 * thread that holds the handle calls. */
uint32_t vahepito_try_send(vahepito_handle *sender, uint64_t body, uint64_t *place, uint32_t *served);

/* The same of `count` words: the codes of vahepito_begin_send_words and vahepito_turn_send. */
uint32_t vahepito_try_send_words(vahepito_handle *sender, const uint64_t *words, size_t count, uint64_t *place,
                                 uint32_t *served);

/* Begins a close of the queue. The thread that holds the handle calls.
 * BEGUN: turn it. NO_PASS, WRONG_SIDE, BUSY: nothing has changed. An exhausted sender may close. */
uint32_t vahepito_begin_close(vahepito_handle *sender);

/* One turn of a close. The thread that holds the handle calls.
 * SHUT, ALREADY with the total: the sender is idle again, and this turn served `served` calls. WAITING: turn again.
 * NO_PASS, WRONG_SIDE, NOT_BEGUN: nothing has changed. */
uint32_t vahepito_turn_close(vahepito_handle *sender, uint64_t *total, uint32_t *served);

/* Begins a take. The thread that holds the handle calls.
 * BEGUN: turn it. NO_PASS, WRONG_SIDE, BUSY: nothing has changed. */
uint32_t vahepito_begin_take(vahepito_handle *receiver);

/* One turn of a take. The thread that holds the handle calls.
 * GOT with the item, EMPTY, ENDED with the total: the receiver is idle again, and this turn served `served` calls.
 * WAITING: turn again. NO_PASS, WRONG_SIDE, NOT_BEGUN; WIDE, of any pass of a queue whose bodies may have several
 * words: nothing has changed. */
uint32_t vahepito_turn_take(vahepito_handle *receiver, vahepito_word_item *item, uint64_t *total, uint32_t *served);

/* Begins a take, and turns it once: the codes of both. After WAITING continue with vahepito_turn_take. */
uint32_t vahepito_try_take(vahepito_handle *receiver, vahepito_word_item *item, uint64_t *total, uint32_t *served);

/* The same two calls, of an item with all words of its body. They never return WIDE. */
uint32_t vahepito_turn_take_words(vahepito_handle *receiver, vahepito_item *item, uint64_t *total, uint32_t *served);
uint32_t vahepito_try_take_words(vahepito_handle *receiver, vahepito_item *item, uint64_t *total, uint32_t *served);

/* Drops a pass at any moment, and leaves the handle empty. A begun call is abandoned: it may stay in the queue
 * unanswered, and stop its side, as said above. The last handle of a queue frees it. The thread that holds the handle
 * calls.
 * DONE, NO_PASS. */
uint32_t vahepito_drop(vahepito_handle *pass);

/* Looks by a pass that has no call, of one load each: how many items the queue has accepted; how many this group, from
 * 1, has taken; and whether the queue is closed, 1 or 0. A look never waits, and changes nothing. The thread that holds
 * the handle calls, as for all calls.
 * DONE with the count. NO_PASS, BUSY, then BAD_GROUPS: the count is 0.
 * Each call that has returned is counted: a send that was accepted, a take that got an item, a close. Beside these one
 * send that is being accepted may be counted or not, and so may one take of the group that is getting an item, and a
 * close. Counts never fall.
 * - Load `accepted`, and then `taken`, by one pass. The queue was full if this is at most `accepted` less `capacity`.
 * - Load `taken`, and then `accepted`. A group had no item to take if `accepted` is at most `taken`; with several
 *   groups the others' `taken` has to be at most the group's own, too.
 * A look is no call: it orders no other memory. */
uint32_t vahepito_accepted(vahepito_handle *pass, uint64_t *count);
uint32_t vahepito_taken(vahepito_handle *pass, uint32_t group, uint64_t *count);
uint32_t vahepito_is_shut(vahepito_handle *pass, uint64_t *shut);

#ifdef __cplusplus
}
#endif

#endif
