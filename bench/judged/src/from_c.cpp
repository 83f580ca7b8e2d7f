// The queues in C, for the program in C++.
#include "c.h"
#include "queues.hpp"

namespace {

struct FromC : Queue {
    explicit FromC(const c_queue &its_queue) : of(its_queue) {}
    bool send(uint64_t item) override { return of.send(of.queue, item) != 0; }
    bool take(uint64_t &item) override { return of.take(of.queue, &item) != 0; }
    void enter() override {
        if (of.enter) of.enter();
    }
    void leave() override {
        if (of.leave) of.leave();
    }
    const c_queue of;
};

} // namespace

std::unique_ptr<Queue> queue_in_c(const std::string &name) {
    struct c_queue found {};
#ifdef HAS_CK
    if (ck_queue(name.c_str(), &found)) return std::make_unique<FromC>(found);
#endif
#ifdef HAS_URCU
    if (urcu_queue(name.c_str(), &found)) return std::make_unique<FromC>(found);
#endif
    (void)name, (void)found;
    return nullptr;
}
