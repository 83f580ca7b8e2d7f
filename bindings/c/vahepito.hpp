/* Vahepito for C++17: senders and receivers of items of a trivially copyable type of up to 32 bytes, or of
 * std::unique_ptr.
 *
 *     auto [sender, receivers] = vahepito::open<int>({.capacity = 8, .groups = 2});   (with these names from C++20 on)
 *     sender.send(7);                                 waits for room; false: the queue is closed
 *     std::optional<int> item = receivers[0].take();  waits for an item; none: it is closed, and all items are taken
 *
 * A sender is copied for each thread that sends, and the receiver of a group for each thread that takes: one thread at
 * a time uses a copy, and different copies may be used at once. The drop of the last sender closes the queue, and so
 * does that of the last receiver of all; the group of a last receiver leaves. The drop of the last of all frees it. A
 * unique_ptr goes to the receiver if its send is accepted, in a queue of one group. Groups, codes and waits are those
 * of vahepito.h. */
#if __cplusplus < 201703L
#error "vahepito.hpp is for C++17 and later: compile with c++ -std=c++17"
#elif !defined(VAHEPITO_HPP)
#define VAHEPITO_HPP

#include "vahepito.h"
#include <algorithm>
#include <array>
#include <atomic>
#include <chrono>
#include <cstring>
#include <functional>
#include <memory>
#include <new>
#include <optional>
#include <stdexcept>
#include <type_traits>
#include <utility>
#include <vector>

namespace vahepito {
/* The code of a call of an object that was moved from. */
constexpr std::uint32_t moved = 9;

/* A call that can't be made: an opening or a send is refused memory, say, or the object was moved from. */
class error : public std::runtime_error {
public:
    explicit error(std::uint32_t number)
        : std::runtime_error(number == moved ? "the object was moved from" : vahepito_text(number)), code(number) {}
    const std::uint32_t code;
};

/* What a send until a moment, or without a wait, comes to. */
enum class sent { accepted, full, closed };
using moment = std::chrono::steady_clock::time_point;

struct config {
    std::uint32_t capacity = 64, groups = 1; /* capacity 0: any number of items */
    std::uint32_t places = 0;                /* how many calls are under way at once; 0 as in vahepito.h */
};

namespace detail {
struct queue {
    ~queue() { vahepito_destroy(at, is_left, this); }
    static void is_left(void *with, std::uint32_t group, const vahepito_item *item) {
        if (const auto &left = static_cast<queue *>(with)->left) left(group, *item);
    }
    vahepito_queue *at = nullptr;
    std::atomic<std::uint32_t> senders{0};
    std::array<std::atomic<std::uint32_t>, 8> receivers{};
    std::function<void(std::uint32_t, const vahepito_item &)> left;
};

/* A share of a queue. */
class share {
protected:
    explicit share(std::shared_ptr<queue> its) : of(std::move(its)) {}
    /* Throws if it was moved from. */
    vahepito_queue *at() const {
        if (!of) throw error(moved);
        return of->at;
    }
    std::shared_ptr<queue> of;
};

inline timespec time_of(moment until) {
    constexpr std::int64_t second = 1000000000;
    const std::int64_t since = std::chrono::nanoseconds(until.time_since_epoch()).count(), rest = since % second;
    return {std::time_t(since / second - (rest < 0)), long(rest < 0 ? rest + second : rest)};
}

template <class T> constexpr std::size_t words = (sizeof(T) + 7) / 8;

/* An item as words. */
template <class T> struct as_words {
    static_assert(std::is_trivially_copyable_v<T> && std::is_default_constructible_v<T>, "items are copied as bytes");
    using argument = const T &;
    static void write(std::uint64_t *to, const T &item) { std::memcpy(to, &item, sizeof item); }
    static void is_sent(const T &) {}
    static T read(const std::uint64_t *from) {
        T item;
        std::memcpy(&item, from, sizeof item);
        return item;
    }
};
/* What it points to goes with it, if the send is accepted. */
template <class V> struct as_words<std::unique_ptr<V>> {
    using argument = std::unique_ptr<V> &&;
    static void write(std::uint64_t *to, const std::unique_ptr<V> &item) {
        *to = reinterpret_cast<std::uintptr_t>(item.get());
    }
    static void is_sent(std::unique_ptr<V> &item) { (void)item.release(); }
    static std::unique_ptr<V> read(const std::uint64_t *from) {
        return std::unique_ptr<V>(reinterpret_cast<V *>(static_cast<std::uintptr_t>(*from)));
    }
};
} // namespace detail

template <class T> class sender : detail::share {
    using argument = typename detail::as_words<T>::argument;

public:
    explicit sender(std::shared_ptr<detail::queue> its) : share(std::move(its)) { of->senders++; }
    sender(const sender &other) : share(other) {
        if (of) of->senders++;
    }
    sender(sender &&) = default;
    sender &operator=(sender other) noexcept {
        std::swap(of, other.of);
        return *this;
    }
    ~sender() {
        if (of && --of->senders == 0) close();
    }

    bool send(argument item) {
        return result(vahepito_send_words(at(), copy(item), detail::words<T>, nullptr), item) == sent::accepted;
    }
    sent try_send(argument item) {
        return result(vahepito_send_words_now(at(), copy(item), detail::words<T>, nullptr), item);
    }
    sent send_until(argument item, moment until) {
        const timespec time = detail::time_of(until);
        return result(vahepito_send_words_until(at(), copy(item), detail::words<T>, &time, nullptr), item);
    }
    /* Sends these, one after another, and waits for room. Returns how many were accepted: fewer if the queue is
     * closed. */
    std::size_t send_many(std::vector<T> &items) {
        std::size_t count = 0;
        while (count < items.size() && send(static_cast<argument>(items[count]))) count++;
        return count;
    }
    std::uint64_t length() const { return vahepito_length(at()); }
    /* As vahepito_descriptor returns it: readable while try_send may find room. */
    int descriptor() const { return vahepito_descriptor(at(), 0); }
    /* Returns whether it was open. */
    bool close() { return of && vahepito_close(of->at, nullptr) == VAHEPITO_SHUT; }

private:
    const std::uint64_t *copy(const T &item) { return detail::as_words<T>::write(body, item), body; }
    template <class Item> static sent result(std::uint32_t code, Item &item) {
        if (code == VAHEPITO_ACCEPTED) return detail::as_words<T>::is_sent(item), sent::accepted;
        if (code == VAHEPITO_FULL) return sent::full;
        if (code == VAHEPITO_CLOSED) return sent::closed;
        throw error(code);
    }
    std::uint64_t body[detail::words<T>] = {};
};

template <class T> class receiver : detail::share {
public:
    receiver(std::shared_ptr<detail::queue> its, std::uint32_t number) : share(std::move(its)), group(number) {
        count()++;
    }
    receiver(const receiver &other) : share(other), group(other.group), is_ended(other.is_ended) {
        if (of) count()++;
    }
    receiver(receiver &&) = default;
    receiver &operator=(receiver other) noexcept {
        std::swap(of, other.of), std::swap(group, other.group), std::swap(is_ended, other.is_ended);
        return *this;
    }
    ~receiver() {
        if (of && --count() == 0) (void)vahepito_leave(of->at, group);
    }

    std::optional<T> take() { return result(vahepito_take(at(), group, &item, nullptr)); }
    std::optional<T> try_take() { return result(vahepito_take_now(at(), group, &item, nullptr)); }
    std::optional<T> take_until(moment until) {
        const timespec time = detail::time_of(until);
        return result(vahepito_take_until(at(), group, &item, &time, nullptr));
    }
    /* Waits for an item, and takes up to `most` of those that are there then: none at the end. No item is lost without
     * memory: it throws std::bad_alloc if it has taken none, and else returns those that it has. */
    std::vector<T> take_many(std::size_t most) {
        std::array<vahepito_item, 64> items;
        const timespec now{};
        std::vector<T> got;
        std::size_t taken = 0;
        do {
            const std::size_t due = std::min(items.size(), most - got.size());
            if (!has_room(got, due)) break;
            const timespec *const until = got.empty() ? nullptr : &now;
            const std::uint32_t code = vahepito_take_many(at(), group, items.data(), due, until, &taken, nullptr);
            is_ended = code == VAHEPITO_ENDED && got.empty();
            for (std::size_t k = 0; k < taken; k++) got.push_back(detail::as_words<T>::read(items[k].words));
        } while (taken == items.size() && got.size() < most);
        return got;
    }
    std::uint64_t length() const { return vahepito_length(at()); }
    /* As vahepito_descriptor returns it: readable while try_take may find something, or the end. */
    int descriptor() const { return vahepito_descriptor(at(), group); }
    /* Whether the last take found the end: the queue is closed, and all its items are taken. */
    bool ended() const { return is_ended; }

private:
    /* Makes room for so many more. */
    static bool has_room(std::vector<T> &got, std::size_t more) {
        try {
            if (got.capacity() < got.size() + more) got.reserve(got.size() + std::max(got.size(), more));
            return true;
        } catch (const std::bad_alloc &) {
            if (got.empty()) throw;
            return false;
        }
    }
    std::optional<T> result(std::uint32_t code) {
        is_ended = code == VAHEPITO_ENDED;
        if (is_ended || code == VAHEPITO_EMPTY) return std::nullopt;
        if (code != VAHEPITO_GOT) throw error(code);
        return detail::as_words<T>::read(item.words);
    }
    std::atomic<std::uint32_t> &count() { return of->receivers[group - 1]; }
    std::uint32_t group;
    vahepito_item item = {};
    bool is_ended = false;
};

/* Opens a queue: its sender, and a receiver for each group. At the end `left` gets each item that a group hasn't
 * taken. */
template <class T>
std::pair<sender<T>, std::vector<receiver<T>>> open(const config &config,
                                                    std::function<void(std::uint32_t group, T item)> left = nullptr) {
    constexpr bool is_copied = std::is_trivially_copyable_v<T>;
    static_assert(sizeof(T) <= 8 * VAHEPITO_MOST_WORDS, "an item has at most 32 bytes");
    vahepito_attributes attributes = VAHEPITO_ATTRIBUTES;
    attributes.capacity = config.capacity, attributes.groups = config.groups, attributes.words = detail::words<T>;
    attributes.places = config.places;
    if (!is_copied && config.groups > 1) throw error(VAHEPITO_BAD_GROUPS);
    const auto shared = std::make_shared<detail::queue>();
    /* What is left of a unique_ptr is freed. */
    if (left || !is_copied)
        shared->left = [left](std::uint32_t group, const vahepito_item &item) {
            auto it = detail::as_words<T>::read(item.words);
            if (left) left(group, std::move(it));
        };
    const std::uint32_t code = vahepito_create_as(&attributes, &shared->at);
    if (code != VAHEPITO_DONE) throw error(code);
    std::vector<receiver<T>> receivers;
    for (std::uint32_t group = 1; group == 1 || group <= config.groups; group++) receivers.emplace_back(shared, group);
    return {sender<T>(shared), std::move(receivers)};
}
} // namespace vahepito
#endif
