// Records the calls of threads on a queue in C or C++, as a log to be judged.
//
//     record QUEUE LOG SENDERS TAKERS CALLS SEED STOPS
//
// Each thread makes this number of calls; if STOPS is 1, threads are stopped in the middle of them. At the end the
// items that are left are taken, until two takes have found none. Exit status 2 if there is no such queue, 1 if the log
// isn't whole.
#define VAHEPITO_RECORD_STOPS
#include "../../../bindings/c/vahepito_record.h"
#include "queues.hpp"

#include <atomic>
#include <cstdlib>
#include <thread>
#include <vector>

static vahepito_log calls;

// How long a thread sleeps that found no item or no room, in nanoseconds. It doesn't yield: on a busy machine a yield
// takes far longer.
constexpr uint64_t PAUSE = 20000;

// A number that changes with each call.
struct Random {
    uint64_t state;
    uint64_t next() {
        state ^= state << 13, state ^= state >> 7, state ^= state << 17;
        return state;
    }
};

static bool send(Queue &queue, vahepito_recorder &mine, uint64_t item) {
    vahepito_begin_recorded_send(&mine, item);
    const bool sent = queue.send(item);
    vahepito_end_recorded_send(&mine, sent ? VAHEPITO_SENT : VAHEPITO_WAS_FULL);
    return sent;
}

static bool take(Queue &queue, vahepito_recorder &mine) {
    uint64_t item = 0;
    vahepito_begin_recorded_take(&mine);
    const bool took = queue.take(item);
    vahepito_end_recorded_take(&mine, took ? VAHEPITO_TOOK : VAHEPITO_FOUND_NONE, item);
    return took;
}

int main(int count, char **words) {
    if (count != 8) {
        fprintf(stderr, "usage: record QUEUE LOG SENDERS TAKERS CALLS SEED STOPS\n");
        return 1;
    }
    std::unique_ptr<Queue> queue = queue_in_cpp(words[1]);
    if (!queue) queue = queue_in_c(words[1]);
    if (!queue) {
        fprintf(stderr, "record: no queue is %s\n", words[1]);
        return 2;
    }
    const unsigned long senders = strtoul(words[3], nullptr, 10), threads = senders + strtoul(words[4], nullptr, 10);
    const uint64_t number = strtoull(words[5], nullptr, 10), seed = strtoull(words[6], nullptr, 10);
    const bool stops = words[7][0] == '1';
    if (vahepito_log_open(&calls, words[2]) != 0 || (stops && vahepito_stops_open() != 0)) {
        perror("record");
        return 1;
    }
    std::vector<vahepito_recorder> recorders(threads + 1);
    for (vahepito_recorder &mine : recorders) vahepito_recorder_open(&mine, &calls);
    std::atomic<unsigned long> ready{0}, running{threads};
    std::vector<std::thread> all;
    for (unsigned long thread = 0; thread < threads; thread++)
        all.emplace_back([&, thread] {
            Random random{seed * 7919 + thread * 104729 + 1};
            queue->enter();
            ready++;
            while (ready < threads) sched_yield();
            for (uint64_t call = 0; call < number; call++) {
                for (volatile uint64_t pause = random.next() % 64; pause; pause = pause - 1) {}
                if (random.next() % 512 == 0) vahepito_sleep(PAUSE);
                vahepito_recorder &mine = recorders[thread];
                const bool done = thread < senders ? send(*queue, mine, (thread + 1) << 32 | call) : take(*queue, mine);
                if (!done) vahepito_sleep(PAUSE);
            }
            queue->leave();
            running--;
        });
    while (running > 0) {
        if (stops) vahepito_stop_threads(&calls, 20);
        else vahepito_sleep(20000000);
        vahepito_log_round(&calls);
    }
    for (std::thread &thread : all) thread.join();
    queue->enter();
    for (int none = 0; none < 2;) none += !take(*queue, recorders[threads]);
    queue->leave();
    if (vahepito_log_close(&calls) == 0) return 0;
    perror("record: the log ends early");
    return 1;
}
