/*
 * A library to be loaded before a program: refuses one of the allocations that the program itself makes, by answering null.
 * The variable REFUSE has its number, from 1; 0 refuses none. In the same way REFUSE_THREAD has the number of the thread
 * that isn't started. At each allocation that the program makes, one byte goes to
 * file descriptor 9, so that the length of what came there counts them, also where the program was stopped by a signal. The
 * byte is the number of bits of the size.
 *
 * What the C library asks for within its own calls is let through and not counted. Threads may run: each allocation has a
 * number of its own. Over glibc.
 */
#define _GNU_SOURCE
#include <dlfcn.h>
#include <errno.h>
#include <link.h>
#include <pthread.h>
#include <stdint.h>
#include <stdlib.h>
#include <unistd.h>

void *__libc_malloc(size_t);
void *__libc_calloc(size_t, size_t);
void *__libc_realloc(void *, size_t);
void *__libc_memalign(size_t, size_t);

/* where the program's own code and data lie, and which of its allocations is refused */
static uintptr_t low = UINTPTR_MAX, high;
static long refused, met;

/* which of its threads isn't started */
static long refused_thread, asked;

/* The program comes first among what is loaded. */
static int measure(struct dl_phdr_info *loaded, size_t size, void *unused) {
    (void)size, (void)unused;
    for (int i = 0; i < loaded->dlpi_phnum; i++) {
        const ElfW(Phdr) *part = &loaded->dlpi_phdr[i];
        if (part->p_type != PT_LOAD)
            continue;
        uintptr_t begin = loaded->dlpi_addr + part->p_vaddr;
        low = begin < low ? begin : low;
        high = begin + part->p_memsz > high ? begin + part->p_memsz : high;
    }
    return 1;
}

__attribute__((constructor)) static void begin(void) {
    const char *number = getenv("REFUSE");
    refused = number ? atol(number) : 0;
    number = getenv("REFUSE_THREAD");
    refused_thread = number ? atol(number) : 0;
    dl_iterate_phdr(measure, NULL);
}

/* Counts an allocation of this size that is asked for at this place of the code, and tells whether it is the one to refuse. */
static int is_refused(void *place, size_t size) {
    if ((uintptr_t)place < low || (uintptr_t)place >= high)
        return 0;
    long number = __atomic_add_fetch(&met, 1, __ATOMIC_SEQ_CST);
    unsigned char bits = size ? 64 - __builtin_clzl(size) : 0;
    if (write(9, &bits, 1) != 1)
        _exit(99);
    if (number == refused)
        errno = ENOMEM;
    return number == refused;
}

#define IS_REFUSED(size) is_refused(__builtin_return_address(0), size)

void *malloc(size_t size) { return IS_REFUSED(size) ? NULL : __libc_malloc(size); }

void *calloc(size_t count, size_t size) { return IS_REFUSED(count * size) ? NULL : __libc_calloc(count, size); }

void *realloc(void *old, size_t size) { return IS_REFUSED(size) ? NULL : __libc_realloc(old, size); }

void *memalign(size_t edge, size_t size) { return IS_REFUSED(size) ? NULL : __libc_memalign(edge, size); }

void *aligned_alloc(size_t edge, size_t size) { return IS_REFUSED(size) ? NULL : __libc_memalign(edge, size); }

int posix_memalign(void **made, size_t edge, size_t size) {
    if (IS_REFUSED(size))
        return ENOMEM;
    void *found = __libc_memalign(edge, size);
    if (found)
        *made = found;
    return found ? 0 : ENOMEM;
}

int pthread_create(pthread_t *thread, const pthread_attr_t *attributes, void *(*run)(void *), void *with) {
    int (*start)(pthread_t *, const pthread_attr_t *, void *(*)(void *), void *) = dlsym(RTLD_NEXT, "pthread_create");
    if (__atomic_add_fetch(&asked, 1, __ATOMIC_SEQ_CST) == refused_thread)
        return EAGAIN;
    return start(thread, attributes, run, with);
}
