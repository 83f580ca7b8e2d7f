// What the programs in C++ see of a queue: the calls that are recorded.
#ifndef QUEUES_HPP
#define QUEUES_HPP

#include <cstdint>
#include <memory>
#include <string>

// A queue of numbers that many threads share. No call waits.
struct Queue {
    virtual ~Queue() = default;
    // Whether the queue accepted the item; if not it was full.
    virtual bool send(uint64_t item) = 0;
    // Whether it held an item.
    virtual bool take(uint64_t &item) = 0;
    // What a thread does before its first call, and after its last one.
    virtual void enter() {}
    virtual void leave() {}
};

// A queue by its name, or none: in C++, and in C.
std::unique_ptr<Queue> queue_in_cpp(const std::string &name);
std::unique_ptr<Queue> queue_in_c(const std::string &name);

#endif
