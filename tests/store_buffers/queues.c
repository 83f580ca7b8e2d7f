/* Two queues, and two threads that call on both, on real processors: does a thread go on to another queue while a store of its last
 * call is in its processor's buffer?
 *
 *     queues FORM ROUNDS MISSES      ROUNDS at most, and no more once MISSES rounds have missed
 *
 * In a round each thread makes a call on its own queue, and then looks at the other thread's queue. The forms are: `take`, a send and a take;
 * `accepted`, a send and a look at how many items were accepted; `taken`, a take and a look at how many were taken. A round has
 * missed if neither thread saw the other's call: in no order of the four calls can that be.
 *
 * It prints the rounds, in how many of them a thread didn't see the other's call, and how many have missed. The exit status is 0, and 1 if the
 * queues can't be opened. */
#include "rounds.h"
#include <string.h>

enum { LATE = 50 };
static enum { TAKE, ACCEPTED, TAKEN, FORMS } form;
static const char *const forms[FORMS] = {"take", "accepted", "taken"};

static vahepito_handle senders[2][2], receivers[2][2]; /* of each queue: that of its own thread, and that of the other one */
static _Alignas(128) struct {
    bool none;
    char beside[127];
} saw[2];

static uint64_t count_of(int queue) {
    uint64_t count;
    vahepito_handle *pass = &receivers[queue][1];
    if ((form == TAKEN ? vahepito_taken(pass, 1, &count) : vahepito_accepted(pass, &count)) != VAHEPITO_DONE) abort();
    return count;
}

/* One round of a thread: whether it didn't see the other's call. */
static bool sees_none(int me, unsigned *state, long time) {
    if (form == TAKEN) sends(&senders[me][0], (uint64_t)time);
    meet(time);
    const uint64_t before = form == TAKE ? 0 : count_of(1 - me);
    meet(time + 1);
    wait_below(LATE, state);
    if (form != TAKEN) sends(&senders[me][0], (uint64_t)time);
    else if (!takes(&receivers[me][0])) abort();
    return form == TAKE ? !takes(&receivers[1 - me][1]) : count_of(1 - me) == before;
}

static long rounds, misses, done, alone, missed;

static void *thread(void *which) {
    const int me = (int)(long)which;
    unsigned state = 7u + 13u * (unsigned)me;
    stay_on(me);
    for (long time = 1; !atomic_load(&ends); time += 4) {
        saw[me].none = sees_none(me, &state, time);
        meet(time + 2);
        while (takes(&receivers[me][0])) {}
        if (me == 0) {
            alone += saw[0].none || saw[1].none;
            missed += saw[0].none && saw[1].none;
            atomic_store(&ends, ++done >= rounds || missed >= misses);
        }
        meet(time + 3);
    }
    return NULL;
}

int main(int count, char **words) {
    const vahepito_config config = {.senders = 2, .receivers = 2, .capacity = 64, .bound = 64, .life = 1ull << 48, .per_sender = ~0u};
    while (count == 4 && form < FORMS && strcmp(words[1], forms[form])) form++;
    if (count != 4 || form == FORMS) return 1;
    rounds = atol(words[2]), misses = atol(words[3]), threads = 2;
    for (int queue = 0; queue < 2; queue++)
        if (vahepito_open_words(&config, 1, 1, senders[queue], 2, receivers[queue], 2) != VAHEPITO_DONE) return 1;
    pthread_t other;
    if (pthread_create(&other, NULL, thread, (void *)1L)) return 1;
    thread((void *)0L);
    pthread_join(other, NULL);
    printf("rounds %ld, alone %ld, missed %ld\n", done, alone, missed);
    return 0;
}
