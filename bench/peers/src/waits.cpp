// The queue of vahepito.h beside queues of libraries for C and C++, and a ring under a mutex: bench/peers/run.py --c
// builds it with the adapters of bench/judged, and runs it.
//
//     waits MODE QUEUE SENDERS RECEIVERS CAPACITY BOUND MILLISECONDS
//
// It prints one number. `alone`: a send and its take on one thread, in ns of its processor. `pass`: an item's time by
// the clock, in ns. An item a millisecond to a receiver that waits: `p50` and `p99` from before its send to after its
// take, and `processor`, the receiver's time for each, in us. `idle`: what receivers of an empty queue take of a
// processor, in thousandths, each. The capacity is PLACES, and the bound isn't looked at. Queues without calls that
// wait are tried again: 64 times with a pause between two tries, and then with yields.
#include "queues.hpp"
#include "vahepito.h"

#include <algorithm>
#include <atomic>
#include <condition_variable>
#include <cstdio>
#include <cstdlib>
#include <ctime>
#include <mutex>
#include <sched.h>
#include <string>
#include <thread>
#include <vector>

namespace {

// A queue whose calls wait.
struct Waiting {
    virtual ~Waiting() = default;
    virtual void send(uint64_t item) = 0;
    virtual uint64_t take() = 0;
    virtual void enter() {}
    virtual void leave() {}
};

struct Proved : Waiting {
    ~Proved() override { vahepito_destroy(queue, nullptr, nullptr); }
    void send(uint64_t item) override {
        if (vahepito_send(queue, item, nullptr) != VAHEPITO_ACCEPTED) abort();
    }
    uint64_t take() override {
        vahepito_item item;
        if (vahepito_take(queue, 1, &item, nullptr) != VAHEPITO_GOT) abort();
        return item.words[0];
    }
    vahepito_queue *const queue = vahepito_create(PLACES);
};

struct Ring : Waiting {
    void send(uint64_t item) override {
        {
            std::unique_lock<std::mutex> guard(lock);
            has_room.wait(guard, [this] { return sent - taken < PLACES; });
            items[sent++ % PLACES] = item;
        }
        has_item.notify_one();
    }
    uint64_t take() override {
        uint64_t item;
        {
            std::unique_lock<std::mutex> guard(lock);
            has_item.wait(guard, [this] { return sent != taken; });
            item = items[taken++ % PLACES];
        }
        has_room.notify_one();
        return item;
    }
    std::mutex lock;
    std::condition_variable has_item, has_room;
    uint64_t items[PLACES], sent = 0, taken = 0;
};

// One of bench/judged, which is tried until it accepts an item, or has one.
struct Polled : Waiting {
    explicit Polled(std::unique_ptr<Queue> its_queue) : queue(std::move(its_queue)) {}
    template <typename Try> static void until(Try once) {
        for (int round = 0; !once(); round++)
            if (round < 64) __builtin_ia32_pause();
            else sched_yield();
    }
    void send(uint64_t item) override {
        until([&] { return queue->send(item); });
    }
    uint64_t take() override {
        uint64_t item;
        until([&] { return queue->take(item); });
        return item;
    }
    void enter() override { queue->enter(); }
    void leave() override { queue->leave(); }
    const std::unique_ptr<Queue> queue;
};

} // namespace

#ifdef HAS_TBB
#include <tbb/concurrent_queue.h>
struct Tbb : Waiting {
    Tbb() { queue.set_capacity(PLACES); }
    void send(uint64_t item) override { queue.push(item); }
    uint64_t take() override {
        uint64_t item;
        queue.pop(item);
        return item;
    }
    tbb::concurrent_bounded_queue<uint64_t> queue;
};
#endif

#ifdef HAS_GLIB
#include <glib.h>
struct Glib : Waiting {
    ~Glib() override { g_async_queue_unref(queue); }
    void send(uint64_t item) override { g_async_queue_push(queue, reinterpret_cast<gpointer>(item + 1)); }
    uint64_t take() override { return reinterpret_cast<uint64_t>(g_async_queue_pop(queue)) - 1; }
    GAsyncQueue *const queue = g_async_queue_new();
};
#endif

namespace {

std::unique_ptr<Waiting> queue_of(const std::string &name) {
    if (name == "vahepito") return std::make_unique<Proved>();
    if (name == "mutex") return std::make_unique<Ring>();
#ifdef HAS_TBB
    if (name == "tbb_bounded") return std::make_unique<Tbb>();
#endif
#ifdef HAS_GLIB
    if (name == "glib") return std::make_unique<Glib>();
#endif
    auto in_c = queue_in_c(name);
    auto found = in_c ? std::move(in_c) : queue_in_cpp(name);
    return found ? std::make_unique<Polled>(std::move(found)) : nullptr;
}

// What ends a receiver.
constexpr uint64_t END = uint64_t{1} << 62;

std::unique_ptr<Waiting> queue;
std::atomic<bool> is_over{false};
std::atomic<uint64_t> passed{0}, used{0};
std::vector<uint64_t> times;

uint64_t now(clockid_t clock) {
    timespec time;
    clock_gettime(clock, &time);
    return static_cast<uint64_t>(time.tv_sec) * 1000000000u + static_cast<uint64_t>(time.tv_nsec);
}

void sleep_for(long milliseconds) { std::this_thread::sleep_for(std::chrono::milliseconds(milliseconds)); }

// Threads of one side.
template <typename Run> std::vector<std::thread> start(int count, Run run) {
    std::vector<std::thread> threads;
    for (int at = 0; at < count; at++)
        threads.emplace_back([run] { queue->enter(), run(), queue->leave(); });
    return threads;
}

void join(std::vector<std::thread> &threads) {
    for (auto &thread : threads) thread.join();
}

void take_all() {
    uint64_t count = 0;
    while (queue->take() != END) count++;
    passed += count;
}

void send_all() {
    for (uint64_t item = 0; !is_over.load(std::memory_order_relaxed); item++) queue->send(item);
}

void take_times() {
    const uint64_t before = now(CLOCK_THREAD_CPUTIME_ID);
    for (uint64_t from; (from = queue->take()) != END;) times.push_back(now(CLOCK_MONOTONIC) - from);
    used = now(CLOCK_THREAD_CPUTIME_ID) - before;
}

double alone(long milliseconds) {
    uint64_t pairs = 0, time = 0;
    const uint64_t before = now(CLOCK_THREAD_CPUTIME_ID);
    do {
        for (int pair = 0; pair < 1000; pair++) queue->send(1), queue->take();
        pairs += 1000, time = now(CLOCK_THREAD_CPUTIME_ID) - before;
    } while (time < static_cast<uint64_t>(milliseconds) * 1000000);
    return static_cast<double>(time) / static_cast<double>(pairs);
}

double pass(int senders, int receivers, long milliseconds) {
    const uint64_t before = now(CLOCK_MONOTONIC);
    auto taking = start(receivers, take_all), sending = start(senders, send_all);
    sleep_for(milliseconds);
    is_over = true;
    join(sending);
    for (int at = 0; at < receivers; at++) queue->send(END);
    join(taking);
    return static_cast<double>(now(CLOCK_MONOTONIC) - before) / static_cast<double>(passed);
}

double paced(const std::string &mode, long milliseconds) {
    times.reserve(static_cast<size_t>(milliseconds));
    auto taking = start(1, take_times);
    for (long at = 0; at < milliseconds; at++) sleep_for(1), queue->send(now(CLOCK_MONOTONIC));
    sleep_for(1), queue->send(END);
    join(taking);
    std::sort(times.begin(), times.end());
    const size_t at = times.size() * (mode == "p50" ? 50 : 99) / 100;
    return static_cast<double>(mode == "processor" ? used.load() / times.size() : times[at]) / 1000;
}

double idle(int receivers, long milliseconds) {
    auto taking = start(receivers, take_all);
    sleep_for(20);
    const uint64_t before = now(CLOCK_PROCESS_CPUTIME_ID);
    sleep_for(milliseconds);
    const auto spent = static_cast<double>(now(CLOCK_PROCESS_CPUTIME_ID) - before);
    for (int at = 0; at < receivers; at++) queue->send(END);
    join(taking);
    return spent / 1000 / static_cast<double>(milliseconds) / receivers;
}

} // namespace

int main(int count, char **words) {
    if (count != 8 || !(queue = queue_of(words[2]))) return 64;
    const std::string mode = words[1];
    const int senders = atoi(words[3]), receivers = atoi(words[4]);
    const long milliseconds = atol(words[7]);
    queue->enter();
    printf("%f\n", mode == "alone"  ? alone(milliseconds)
                   : mode == "pass" ? pass(senders, receivers, milliseconds)
                   : mode == "idle" ? idle(receivers, milliseconds)
                                    : paced(mode, milliseconds));
    queue->leave();
    return 0;
}
