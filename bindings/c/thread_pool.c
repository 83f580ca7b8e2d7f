/* A thread pool: four threads run the tasks that one thread submits, and end when there are no more. It counts primes.
 *
 *     cc -O2 -pthread thread_pool.c libvahepito_queue.a libvahepito.a libvahepito_heap.a -o thread_pool &&
 *     ./thread_pool
 *
 * A task is a pointer to a function and its arguments, and the queue's item is the pointer to it. A submitting thread
 * waits if 64 tasks wait. A task must not submit a further one to its own pool: if all threads did, they would wait for
 * each other. */
#include <vahepito.h>

#include <pthread.h>
#include <stdio.h>

enum { THREADS = 4, TASKS = 100, UP_TO = 100000 };

struct task {
    void (*run)(struct task *);
    int from, to, primes;
};

struct pool {
    vahepito_queue *queue;
    pthread_t threads[THREADS];
};

static void *run_tasks(void *at) {
    struct pool *pool = at;
    vahepito_item item;
    while (vahepito_take(pool->queue, 1, &item, NULL) == VAHEPITO_GOT) {
        struct task *task = (struct task *)(uintptr_t)item.words[0];
        task->run(task);
    }
    return NULL; /* the queue is closed, and all its tasks are taken */
}

static void count_primes(struct task *task) {
    for (int number = task->from; number < task->to; number++) {
        int divisor = 2;
        while (divisor * divisor <= number && number % divisor != 0) divisor++;
        task->primes += number > 1 && divisor * divisor > number;
    }
}

int main(void) {
    static struct pool pool;
    static struct task tasks[TASKS];
    if (!(pool.queue = vahepito_create(64))) {
        fprintf(stderr, "the pool isn't opened\n");
        return 1;
    }
    for (int at = 0; at < THREADS; at++)
        if (pthread_create(&pool.threads[at], NULL, run_tasks, &pool) != 0) return 1;
    for (int at = 0; at < TASKS; at++) {
        tasks[at] = (struct task){count_primes, UP_TO / TASKS * at, UP_TO / TASKS * (at + 1), 0};
        if (vahepito_send(pool.queue, (uintptr_t)&tasks[at], NULL) != VAHEPITO_ACCEPTED) return 1;
    }
    vahepito_close(pool.queue, NULL);

    int primes = 0;
    for (int at = 0; at < THREADS; at++) pthread_join(pool.threads[at], NULL);
    vahepito_destroy(pool.queue, NULL, NULL);
    for (int at = 0; at < TASKS; at++) primes += tasks[at].primes;
    printf("%d primes below %d\n", primes, UP_TO);
    return 0;
}
