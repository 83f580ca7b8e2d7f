/* One log of two services: each writes lines in its own thread, and one thread writes all of them to the standard
 * output.
 *
 *     cc -O2 -pthread services.c libvahepito_queue.a libvahepito.a libvahepito_heap.a -o services && ./services [LINES]
 *
 * A line is memory of malloc, and the queue's item is the pointer to it: its service fills it, and the writer frees it.
 * The lines of a service stay in order. If no line comes for a tenth of a second, the writer flushes what it has. */
#include <vahepito.h>

#include <pthread.h>
#include <stdio.h>
#include <stdlib.h>

enum { SERVICES = 2, LONGEST = 80 };

static const char *const names[SERVICES] = {"mail", "web"};
static vahepito_queue *queue;
static int lines = 3;

static void *serve(void *at) {
    const char *name = at;
    for (int number = 1; number <= lines; number++) {
        char *line = malloc(LONGEST);
        if (!line) break;
        snprintf(line, LONGEST, "%s: request %d", name, number);
        if (vahepito_send(queue, (uintptr_t)line, NULL) != VAHEPITO_ACCEPTED) {
            free(line); /* closed: the line is still this thread's */
            break;
        }
    }
    return NULL;
}

static void *write_lines(void *unused) {
    for (;;) {
        const struct timespec tenth = vahepito_after(100000000);
        vahepito_item item;
        const uint32_t code = vahepito_take_until(queue, 1, &item, &tenth, NULL);
        if (code == VAHEPITO_GOT) {
            puts((char *)(uintptr_t)item.words[0]);
            free((char *)(uintptr_t)item.words[0]);
        } else {
            fflush(stdout);
            if (code != VAHEPITO_EMPTY) return unused; /* the end */
        }
    }
}

int main(int count, char **words) {
    pthread_t serving[SERVICES], writing;
    if (count > 1) lines = atoi(words[1]);
    if (!(queue = vahepito_create(64))) return 1;
    if (pthread_create(&writing, NULL, write_lines, NULL) != 0) return 1;
    for (int at = 0; at < SERVICES; at++)
        if (pthread_create(&serving[at], NULL, serve, (void *)names[at]) != 0) return 1;
    for (int at = 0; at < SERVICES; at++) pthread_join(serving[at], NULL);
    vahepito_close(queue, NULL); /* the writer writes what was sent, and ends */
    pthread_join(writing, NULL);
    vahepito_destroy(queue, NULL, NULL);
    return 0;
}
