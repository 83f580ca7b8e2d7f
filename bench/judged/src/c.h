/* The queues in C, as the program in C++ sees them: a queue, and its calls, which return 1 if they sent or took. */
#ifndef C_H
#define C_H

#include <stdint.h>

#ifdef __cplusplus
extern "C" {
#endif

struct c_queue {
    void *queue;
    int (*send)(void *queue, uint64_t item);
    int (*take)(void *queue, uint64_t *item);
    void (*enter)(void);
    void (*leave)(void);
};

/* A queue by its name: 1, or 0 if there is none. */
int ck_queue(const char *name, struct c_queue *out);
int urcu_queue(const char *name, struct c_queue *out);

#ifdef __cplusplus
}
#endif

#endif
