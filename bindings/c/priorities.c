/* A thread of high priority doesn't hold up the thread that it waits for. A thread under SCHED_FIFO sends and takes in
 * an endless loop, on the same processor as an ordinary thread that does the same. It interrupts the ordinary thread in
 * the middle of calls, and has to wait for the answers of its own calls until that thread goes on. If it only yielded,
 * it would run until the kernel takes the processor from all threads of its class, which is so once they have had most
 * of a second.
 *
 * So what counts is the thread's own processor time, however busy the machine is. The test ends with status 0 if no
 * send with its take took half of the time that the kernel lets the class have, and with 77 if it may not set the class
 * or if there is none. Only calls that wait for neither room nor an item are made. */
#define _GNU_SOURCE
#include "checks.h"

static const uint64_t ALL = 1500000000; /* nanoseconds */

static vahepito_queue *queue;
static int is_over;

/* For how many nanoseconds threads of the class may run before the kernel lets others run; its default if it doesn't
 * say so. */
static uint64_t share_of_the_class(void) {
    long microseconds = 0;
    FILE *file = fopen("/proc/sys/kernel/sched_rt_runtime_us", "r");
    if (file && fscanf(file, "%ld", &microseconds) != 1) microseconds = 0;
    if (file) fclose(file);
    return 1000 * (uint64_t)(microseconds > 0 ? microseconds : 950000);
}

static void send_and_take(void) {
    vahepito_item item;
    const uint32_t sent = vahepito_send_now(queue, 1, NULL);
    check(sent == VAHEPITO_ACCEPTED || sent == VAHEPITO_FULL, "a send is accepted, or finds the queue full");
    const uint32_t taken = vahepito_take_now(queue, 1, &item, NULL);
    check(taken == VAHEPITO_GOT || taken == VAHEPITO_EMPTY, "a take gets an item, or finds none");
}

static void *ordinary(void *unused) {
    while (!__atomic_load_n(&is_over, __ATOMIC_RELAXED)) send_and_take();
    return unused;
}

int main(void) {
    cpu_set_t one;
    CPU_ZERO(&one);
    CPU_SET(sched_getcpu(), &one);
    check(sched_setaffinity(0, sizeof one, &one) == 0, "the threads stay on one processor");
    queue = opened(64, 1);
    const pthread_t thread = started(ordinary, NULL);
    const struct sched_param first = {1}, last = {0};
    if (pthread_setschedparam(pthread_self(), SCHED_FIFO, &first) != 0) {
        puts("SKIPPED: this process may not use SCHED_FIFO");
        return 77;
    }
    uint64_t longest = 0, pairs = 0;
    for (const uint64_t end = time_of(CLOCK_MONOTONIC) + ALL; time_of(CLOCK_MONOTONIC) < end; pairs++) {
        const struct timespec pause = {0, 300000};
        nanosleep(&pause, NULL);
        const uint64_t begin = time_of(CLOCK_THREAD_CPUTIME_ID);
        send_and_take();
        const uint64_t took = time_of(CLOCK_THREAD_CPUTIME_ID) - begin;
        if (took > longest) longest = took;
    }
    pthread_setschedparam(pthread_self(), SCHED_OTHER, &last);
    __atomic_store_n(&is_over, 1, __ATOMIC_RELAXED);
    (void)joined(thread);
    vahepito_destroy(queue, NULL, NULL);
    fprintf(stderr, "C: priorities: %llu pairs, the longest took %.3f ms of the processor\n",
            (unsigned long long)pairs, (double)longest / 1e6);
    return longest >= share_of_the_class() / 2;
}
