// The queues in C++: those of libraries that HAS_ names, those of the system, a control under a lock, and planted
// faults.
#include "queues.hpp"

#include <atomic>
#include <cerrno>
#include <cstdio>
#include <cstdlib>
#include <deque>
#include <fcntl.h>
#include <mqueue.h>
#include <mutex>
#include <sys/msg.h>
#include <sys/socket.h>
#include <unistd.h>

namespace {

#ifndef PLACES
#define PLACES 16
#endif
constexpr size_t CAPACITY = PLACES;

[[noreturn]] void fail(const char *what) {
    perror(what);
    exit(1);
}

// A control: a deque under a lock. It can be planted with faults: each thousandth item is lost, given twice, or
// overtaken by the next; or a send finds the empty queue full. What a fault needs, a second item or none, is waited
// for.
struct Locked : Queue {
    enum Fault { NONE, LOST, TWICE, OVERTAKEN, FULL_EARLY };
    explicit Locked(Fault its_fault) : fault(its_fault) {}
    bool send(uint64_t item) override {
        std::lock_guard<std::mutex> guard(lock);
        if (items.size() == CAPACITY) return false;
        const bool due = ++sends >= 1000;
        if (due && (fault == LOST || (fault == FULL_EARLY && items.empty()))) return sends = 0, fault == LOST;
        items.push_back(item);
        return true;
    }
    bool take(uint64_t &item) override {
        std::lock_guard<std::mutex> guard(lock);
        if (items.empty()) return false;
        const bool due = takes >= 1000;
        const size_t place = due && fault == OVERTAKEN && items.size() > 1 ? 1 : 0;
        item = items[place];
        if (!(due && fault == TWICE)) items.erase(items.begin() + static_cast<long>(place));
        takes = due && (fault != OVERTAKEN || place == 1) ? 0 : takes + 1;
        return true;
    }
    const Fault fault;
    std::mutex lock;
    std::deque<uint64_t> items;
    uint64_t sends = 0, takes = 0;
};

// Dmitry Vyukov's bounded queue as published (1024cores.net, "Bounded MPMC queue"). A send that was interrupted after
// it has claimed its place makes takes find none though items of later sends are there; and a take so makes sends find
// no room.
struct Vyukov : Queue {
    struct Cell {
        std::atomic<size_t> sequence;
        uint64_t item;
    };
    Vyukov() {
        for (size_t place = 0; place < CAPACITY; place++) cells[place].sequence.store(place, std::memory_order_relaxed);
    }
    // The place of the next call, whose sequence has to be its number and `shift` more; nullptr if it is behind.
    Cell *claim(std::atomic<size_t> &next, size_t shift, size_t &at) {
        at = next.load(std::memory_order_relaxed);
        for (;;) {
            Cell &cell = cells[at % CAPACITY];
            const auto ahead = static_cast<intptr_t>(cell.sequence.load(std::memory_order_acquire) - (at + shift));
            if (ahead == 0 && next.compare_exchange_weak(at, at + 1, std::memory_order_relaxed)) return &cell;
            if (ahead < 0) return nullptr;
            if (ahead > 0) at = next.load(std::memory_order_relaxed);
        }
    }
    bool send(uint64_t item) override {
        size_t at;
        Cell *cell = claim(next_send, 0, at);
        if (!cell) return false;
        cell->item = item;
        cell->sequence.store(at + 1, std::memory_order_release);
        return true;
    }
    bool take(uint64_t &item) override {
        size_t at;
        Cell *cell = claim(next_take, 1, at);
        if (!cell) return false;
        item = cell->item;
        cell->sequence.store(at + CAPACITY, std::memory_order_release);
        return true;
    }
    Cell cells[CAPACITY];
    alignas(64) std::atomic<size_t> next_send{0};
    alignas(64) std::atomic<size_t> next_take{0};
};

// A pipe of one page, and a pair of sockets for datagrams: items are eight bytes.
struct Files : Queue {
    Files(int from, int to) : reads(from), writes(to) {}
    ~Files() override { close(reads), close(writes); }
    bool send(uint64_t item) override { return write(writes, &item, 8) == 8; }
    bool take(uint64_t &item) override { return read(reads, &item, 8) == 8; }
    const int reads, writes;
};

std::unique_ptr<Queue> pipe_of_a_page() {
    int files[2];
    if (pipe2(files, O_NONBLOCK) != 0) fail("pipe2");
    fcntl(files[1], F_SETPIPE_SZ, 4096);
    return std::make_unique<Files>(files[0], files[1]);
}

std::unique_ptr<Queue> datagrams() {
    int files[2];
    if (socketpair(AF_UNIX, SOCK_DGRAM | SOCK_NONBLOCK, 0, files) != 0) fail("socketpair");
    return std::make_unique<Files>(files[0], files[1]);
}

// A POSIX message queue, of ten messages: more need a privilege.
struct Posix : Queue {
    Posix() {
        mq_attr shape{};
        shape.mq_maxmsg = 10, shape.mq_msgsize = 8;
        const std::string name = "/vahepito" + std::to_string(getpid());
        queue = mq_open(name.c_str(), O_CREAT | O_RDWR | O_NONBLOCK, 0600, &shape);
        if (queue == static_cast<mqd_t>(-1)) fail("mq_open");
        mq_unlink(name.c_str());
    }
    ~Posix() override { mq_close(queue); }
    bool send(uint64_t item) override { return mq_send(queue, reinterpret_cast<char *>(&item), 8, 0) == 0; }
    bool take(uint64_t &item) override { return mq_receive(queue, reinterpret_cast<char *>(&item), 8, nullptr) == 8; }
    mqd_t queue;
};

// A System V message queue.
struct SystemV : Queue {
    struct Message {
        long type;
        uint64_t item;
    };
    SystemV() : queue(msgget(IPC_PRIVATE, 0600)) {
        if (queue < 0) fail("msgget");
    }
    ~SystemV() override { msgctl(queue, IPC_RMID, nullptr); }
    bool send(uint64_t item) override {
        const Message message{1, item};
        return msgsnd(queue, &message, 8, IPC_NOWAIT) == 0;
    }
    bool take(uint64_t &item) override {
        Message message;
        if (msgrcv(queue, &message, 8, 1, IPC_NOWAIT) != 8) return false;
        item = message.item;
        return true;
    }
    const int queue;
};

} // namespace

#ifdef HAS_BOOST
#include <boost/lockfree/queue.hpp>
#include <boost/lockfree/spsc_queue.hpp>
namespace {
struct Boost : Queue {
    bool send(uint64_t item) override { return queue.push(item); }
    bool take(uint64_t &item) override { return queue.pop(item); }
    boost::lockfree::queue<uint64_t> queue{64};
};
struct BoostBounded : Queue {
    bool send(uint64_t item) override { return queue.bounded_push(item); }
    bool take(uint64_t &item) override { return queue.pop(item); }
    boost::lockfree::queue<uint64_t, boost::lockfree::capacity<CAPACITY>> queue;
};
struct BoostSpsc : Queue {
    bool send(uint64_t item) override { return queue.push(item); }
    bool take(uint64_t &item) override { return queue.pop(item); }
    boost::lockfree::spsc_queue<uint64_t, boost::lockfree::capacity<CAPACITY>> queue;
};
} // namespace
#endif

#ifdef HAS_MOODYCAMEL
#include <concurrentqueue/concurrentqueue.h>
namespace {
struct Moodycamel : Queue {
    bool send(uint64_t item) override { return queue.enqueue(item); }
    bool take(uint64_t &item) override { return queue.try_dequeue(item); }
    moodycamel::ConcurrentQueue<uint64_t> queue;
};
} // namespace
#endif

#ifdef HAS_TBB
#include <tbb/concurrent_queue.h>
namespace {
struct Tbb : Queue {
    bool send(uint64_t item) override {
        queue.push(item);
        return true;
    }
    bool take(uint64_t &item) override { return queue.try_pop(item); }
    tbb::concurrent_queue<uint64_t> queue;
};
struct TbbBounded : Queue {
    TbbBounded() { queue.set_capacity(CAPACITY); }
    bool send(uint64_t item) override { return queue.try_push(item); }
    bool take(uint64_t &item) override { return queue.try_pop(item); }
    tbb::concurrent_bounded_queue<uint64_t> queue;
};
} // namespace
#endif

#ifdef HAS_GLIB
#include <glib.h>
namespace {
// No item is a null pointer: each is one more.
struct Glib : Queue {
    ~Glib() override { g_async_queue_unref(queue); }
    bool send(uint64_t item) override {
        g_async_queue_push(queue, reinterpret_cast<gpointer>(item + 1));
        return true;
    }
    bool take(uint64_t &item) override {
        const auto found = reinterpret_cast<uint64_t>(g_async_queue_try_pop(queue));
        item = found - 1;
        return found != 0;
    }
    GAsyncQueue *queue = g_async_queue_new();
};
} // namespace
#endif

std::unique_ptr<Queue> queue_in_cpp(const std::string &name) {
    if (name == "locked") return std::make_unique<Locked>(Locked::NONE);
    if (name == "planted_lost") return std::make_unique<Locked>(Locked::LOST);
    if (name == "planted_twice") return std::make_unique<Locked>(Locked::TWICE);
    if (name == "planted_overtaken") return std::make_unique<Locked>(Locked::OVERTAKEN);
    if (name == "planted_full") return std::make_unique<Locked>(Locked::FULL_EARLY);
    if (name == "vyukov") return std::make_unique<Vyukov>();
    if (name == "pipe") return pipe_of_a_page();
    if (name == "datagrams") return datagrams();
    if (name == "posix") return std::make_unique<Posix>();
    if (name == "system_v") return std::make_unique<SystemV>();
#ifdef HAS_BOOST
    if (name == "boost") return std::make_unique<Boost>();
    if (name == "boost_bounded") return std::make_unique<BoostBounded>();
    if (name == "boost_spsc") return std::make_unique<BoostSpsc>();
#endif
#ifdef HAS_MOODYCAMEL
    if (name == "moodycamel") return std::make_unique<Moodycamel>();
#endif
#ifdef HAS_TBB
    if (name == "tbb") return std::make_unique<Tbb>();
    if (name == "tbb_bounded") return std::make_unique<TbbBounded>();
#endif
#ifdef HAS_GLIB
    if (name == "glib") return std::make_unique<Glib>();
#endif
    return nullptr;
}
