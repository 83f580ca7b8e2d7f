/* Two stores and two loads at the library's border, on real processors: does a call that has returned leave a store in its
 * processor's buffer?
 *
 *     border ROUNDS MISSES      ROUNDS at most, and no more once MISSES rounds have missed
 *
 * Each round has senders and one receiver, a thread each, on a processor each. A sender sends, and then looks whether the receiver
 * is about to park. The receiver marks that it is about to park, and then takes. A round has missed if the take returned Empty and
 * a sender saw no mark: so a receiver would sleep beside its item. A round that hasn't missed says nothing alone; so the threads
 * begin each round at the same time, and wait for a random time before their calls.
 *
 * It prints the rounds, in how many of them the take returned Empty, and how many have missed. The exit status is 0, and 1 if the queue can't be opened. */
#include "rounds.h"

enum { MOST_SENDERS = 2, SEND_LATE = 60, TAKE_LATE = 120 };

static int senders; /* one processor less than there are, and two at most */
static _Alignas(128) atomic_int parks;            /* the receiver's mark */
static _Alignas(128) bool saw_none[MOST_SENDERS]; /* the sender saw no mark in this round */
static vahepito_handle sending[MOST_SENDERS], receiving;

static int processors(void) {
    cpu_set_t may;
    return sched_getaffinity(0, sizeof may, &may) ? 0 : CPU_COUNT(&may);
}

static bool opened(void) {
    vahepito_config config = {.senders = (uint32_t)senders, .receivers = 1, .capacity = 4, .bound = 64, .life = 1ull << 48, .per_sender = ~0u};
    return vahepito_open_words(&config, 1, 1, sending, (size_t)senders, &receiving, 1) == VAHEPITO_DONE;
}

static void *sender(void *which) {
    int me = (int)(long)which;
    unsigned state = 5u + (unsigned)me;
    stay_on(me);
    for (long time = 1; !atomic_load(&ends); time += 3) {
        meet(time);
        wait_below(SEND_LATE, &state);
        sends(&sending[me], (uint64_t)time);
        saw_none[me] = !atomic_load(&parks);
        meet(time + 1);
        meet(time + 2);
    }
    return NULL;
}

int main(int count, char **words) {
    senders = processors() - 1 < MOST_SENDERS ? processors() - 1 : MOST_SENDERS;
    threads = senders + 1;
    if (count != 3 || senders < 1 || !opened()) return 1;
    const long rounds = atol(words[1]), misses = atol(words[2]);

    pthread_t others[MOST_SENDERS];
    for (long which = 0; which < senders; which++)
        if (pthread_create(&others[which], NULL, sender, (void *)which)) return 1;
    stay_on(senders);

    unsigned state = 99;
    long done = 0, empty = 0, missed = 0;
    for (long time = 1; !atomic_load(&ends); time += 3) {
        meet(time);
        wait_below(TAKE_LATE, &state);
        atomic_exchange(&parks, 1);
        bool got = takes(&receiving);
        meet(time + 1);
        while (takes(&receiving)) {}
        bool none = false;
        for (int which = 0; which < senders; which++) none |= saw_none[which];
        empty += !got;
        missed += !got && none;
        atomic_store(&parks, 0);
        atomic_store(&ends, ++done >= rounds || missed >= misses);
        meet(time + 2);
    }
    for (int which = 0; which < senders; which++) pthread_join(others[which], NULL);
    printf("rounds %ld, alone %ld, missed %ld\n", done, empty, missed);
    return 0;
}
