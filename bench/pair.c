/* The time of a send with its take on one thread, by handles: bench/pairs.py runs it.
 *
 *     pair PAIRS      prints the nanoseconds of a pair */
#include "handles.h"

#include <stdio.h>
#include <stdlib.h>
#include <time.h>

static const vahepito_config config = {1, 1, 64, 64, (uint64_t)1 << 48, UINT32_MAX};

static uint64_t make(uint64_t pairs) {
    vahepito_handle sender = VAHEPITO_HANDLE_EMPTY, receiver = VAHEPITO_HANDLE_EMPTY;
    if (vahepito_open_words(&config, 1, 1, &sender, 1, &receiver, 1) != VAHEPITO_DONE) return 1;
    uint64_t place, total, wrong = 0;
    uint32_t served;
    vahepito_word_item item;
    for (uint64_t i = 0; i < pairs; i++) {
        wrong += vahepito_try_send(&sender, i, &place, &served) != VAHEPITO_ACCEPTED;
        wrong += vahepito_try_take(&receiver, &item, &total, &served) != VAHEPITO_GOT || item.body != i;
    }
    return wrong;
}

static double now(void) {
    struct timespec time;
    clock_gettime(CLOCK_MONOTONIC, &time);
    return (double)time.tv_sec * 1e9 + (double)time.tv_nsec;
}

int main(int count, char **args) {
    if (count != 2) return 64;
    const uint64_t pairs = strtoull(args[1], NULL, 10);
    if (make(pairs / 4) != 0) return 1;
    const double begin = now();
    if (make(pairs) != 0) return 1;
    printf("%.2f\n", (now() - begin) / (double)pairs);
    return 0;
}
