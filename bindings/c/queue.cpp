/* vahepito.hpp: threads send pairs and take them, they are copied and moved, calls wait until a moment, and the last
 * sender closes. */
#include "vahepito.hpp"

#include <cstdio>
#include <cstdlib>
#include <new>
#include <thread>

namespace {

/* How many further requests for memory this thread is granted; if negative, all. */
thread_local int grants = -1;

struct pair {
    std::uint64_t number;
    double half;
    char letter;
};

void check(bool holds, const char *what) {
    if (holds) return;
    std::fprintf(stderr, "not so: %s\n", what);
    std::exit(1);
}

template <class F> bool throws(F call) {
    try {
        call();
    } catch (const std::bad_alloc &) {
        return true;
    }
    return false;
}

template <class F, class... With> std::uint32_t code_of(F call, With &...with) {
    try {
        call(with...);
    } catch (const vahepito::error &error) {
        return error.code;
    }
    return VAHEPITO_DONE;
}

void one_thread() {
    vahepito::config config;
    config.capacity = 1;
    auto [sender, receivers] = vahepito::open<int>(config);
    const auto soon = [] { return std::chrono::steady_clock::now() + std::chrono::milliseconds(20); };
    check(sender.send(-7), "there is room for one");
    check(sender.try_send(8) == vahepito::sent::full, "and no more");
    vahepito::sender<int> copy = sender;
    auto from = std::chrono::steady_clock::now();
    check(copy.send_until(8, soon()) == vahepito::sent::full, "until the moment");
    check(std::chrono::steady_clock::now() - from >= std::chrono::milliseconds(20), "and not before");
    vahepito::receiver<int> receiver = std::move(receivers[0]);
    check(receiver.take() == -7, "it is as it was sent");
    check(!receiver.try_take() && !receiver.ended() && !receiver.take_until(soon()), "there is none");
    check(code_of([](auto &it) { it.take(); }, receivers[0]) == vahepito::moved,
          "a receiver that was moved from takes nothing");
    { vahepito::sender<int> other = std::move(sender); }
    check(code_of([](auto &it) { it.send(1); }, sender) == vahepito::moved && !sender.close(),
          "nor does a sender send");
    check(copy.send(9), "a queue with a sender is open");
    vahepito::receiver<int> second = receiver;
    { auto last = std::move(copy); }
    check(second.take() == 9 && !receiver.take() && receiver.ended(), "the last sender closes it");
    config.capacity = 4097;
    check(code_of([](auto &it) { vahepito::open<int>(it); }, config) == VAHEPITO_BAD_CAPACITY, "an opening is refused");
    config.capacity = 1;
    auto [closing, left] = vahepito::open<pair>(config);
    auto again = closing;
    check(closing.close() && !again.close() && !closing.send({}), "a close is seen by all");
    closing = std::move(again);
    check(!left[0].take(), "and ends the takes");
}

void defaults_and_moments() {
    vahepito::config config;
    config.groups = 0;
    auto [sender, receivers] = vahepito::open<int>(config);
    check(receivers.size() == 1 && sender.send(7) && receivers[0].take() == 7, "no groups are one");
    check(!receivers[0].take_until(vahepito::moment::min()) && !receivers[0].ended(),
          "the first moment of all has come");
}

struct counted {
    explicit counted(int &its) : count(&its) { ++*count; }
    ~counted() { --*count; }
    int *count;
};

void receivers_go() {
    vahepito::config config;
    config.capacity = 1, config.groups = 2;
    auto [sender, receivers] = vahepito::open<int>(config);
    check(sender.send(1) && sender.try_send(2) == vahepito::sent::full && sender.length() == 1,
          "there is room for one");
    receivers.pop_back();
    check(sender.length() == 1 && receivers[0].take() == 1 && sender.send(2), "a group that leaves holds no room");
    vahepito::receiver<int> other = receivers[0];
    receivers.clear();
    check(other.take() == 2 && sender.send(3), "a group has its copies");
    { auto last = std::move(other); }
    check(!sender.send(4) && sender.try_send(5) == vahepito::sent::closed, "the last receiver of all closes the queue");
}

/* Batches of several chunks, of which some, or all, find no memory: then the items that aren't taken stay. */
void many_at_once() {
    vahepito::config config;
    config.capacity = 0;
    auto [sender, receivers] = vahepito::open<std::unique_ptr<int>>(config);
    int next = 0, due = 0;
    for (; next < 1000; next++) check(sender.send(std::make_unique<int>(next)), "there is no bound");
    const auto takes = [&, &taker = receivers[0]](std::size_t most, std::size_t count) {
        const auto got = taker.take_many(most);
        check(got.size() == count && !taker.ended(), "as many as are wanted");
        for (const auto &item : got) check(*item == due++, "in their order");
    };
    takes(0, 0), takes(1, 1), takes(64, 64), takes(65, 65), takes(300, 300);
    grants = 0;
    check(throws([&, &taker = receivers[0]] { (void)taker.take_many(10); }) && sender.length() == 570, "all stay");
    grants = 1;
    takes(300, 64);
    grants = -1;
    takes(1000, 506);
    check(sender.close() && receivers[0].take_many(9).empty() && receivers[0].ended(), "and then it ends");
}

void batches_and_pointers() {
    auto [sender, receivers] = vahepito::open<int>({});
    std::vector<int> numbers{1, 2, 3};
    check(sender.send_many(numbers) == 3 && receivers[0].take_many(2) == std::vector<int>{1, 2},
          "up to as many as there are");
    check(receivers[0].take_many(5) == std::vector<int>{3} && sender.descriptor() >= 0 &&
              receivers[0].descriptor() >= 0,
          "and the rest");
    check(sender.close() && receivers[0].take_many(5).empty() && receivers[0].ended(), "and none at the end");
    int alive = 0, left = 0;
    {
        vahepito::config config;
        config.capacity = 2;
        auto [owner, takers] = vahepito::open<std::unique_ptr<counted>>(config);
        auto refused = std::make_unique<counted>(alive);
        check(owner.send(std::make_unique<counted>(alive)) && owner.send(std::make_unique<counted>(alive)),
              "there is room for two");
        check(owner.try_send(std::move(refused)) == vahepito::sent::full && refused, "what isn't accepted stays");
        const auto taken = takers[0].take();
        check(taken && (*taken)->count == &alive && alive == 3, "what is taken is the taker's");
    }
    check(alive == 0, "and what is left is freed");
    {
        auto [first, second] =
            vahepito::open<int>({}, [&left](std::uint32_t group, int item) { left += static_cast<int>(group) * item; });
        check(first.send(7) && first.send(8) && second[0].take() == 7, "one is taken");
    }
    check(left == 8, "and the other one given at the end");
}

std::uint64_t many_threads() {
    constexpr std::uint32_t each = 4, items = 2000;
    vahepito::config config;
    config.capacity = 3;
    config.groups = 2;
    config.places = 3;
    auto [first, receivers] = vahepito::open<pair>(config);
    std::atomic<std::uint64_t> taken{0};
    std::vector<std::thread> threads;
    for (auto &its : receivers)
        for (std::uint32_t thread = 0; thread < each; thread++)
            threads.emplace_back([receiver = its, &taken]() mutable {
                while (const auto item = receiver.take()) {
                    check(item->half * 2 == double(item->number) && item->letter == 'v', "an item is as it was sent");
                    taken++;
                }
            });
    for (std::uint32_t thread = 0; thread < each; thread++)
        threads.emplace_back([sender = first]() mutable {
            for (std::uint64_t number = 0; number < items; number++)
                check(sender.send({number, double(number) / 2, 'v'}), "it is open");
        });
    { auto last = std::move(first); }
    for (auto &thread : threads) thread.join();
    check(taken == std::uint64_t(2) * each * items, "each group has each item once");
    return taken;
}

} // namespace

void *operator new(std::size_t size) {
    void *const at = grants == 0 ? nullptr : std::malloc(size);
    if (!at) throw std::bad_alloc();
    if (grants > 0) grants--;
    return at;
}
/* Once inlined, a compiler sees `free` of what `new` gave, and warns. */
__attribute__((noinline)) void operator delete(void *at) noexcept { std::free(at); }
__attribute__((noinline)) void operator delete(void *at, std::size_t) noexcept { std::free(at); }

int main() {
    one_thread();
    defaults_and_moments();
    receivers_go();
    batches_and_pointers();
    many_at_once();
    std::printf("%llu items\n", static_cast<unsigned long long>(many_threads()));
}
