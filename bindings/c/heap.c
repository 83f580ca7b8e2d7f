/* The library's functions for memory on machines for which the toolchain has none: part of libvahepito_heap.a, and not
 * proved.
 *
 * Their contracts are the three axioms that PROOF counts: what the toolchain's liblibc_c.a does on x86-64. A size of 0
 * asks for as many bytes as the alignment, which divides 16. An answer has two registers: whether memory was given, and
 * where it is; without memory it is an address of this file.
 *
 * The toolchain's compiler, which builds it, has no headers. */
void *realloc(void *, __SIZE_TYPE__);
void free(void *);
void *vahepito_block(__SIZE_TYPE__); /* blocks.c */

typedef struct {
    __SIZE_TYPE__ ok; /* 0 or 1, in the whole register */
    void *at;
} answer;

static char nothing;

static answer answer_of(void *at) {
    return at ? (answer){1, at} : (answer){0, &nothing};
}

answer vahepito_mem(__SIZE_TYPE__ size, __SIZE_TYPE__ align) {
    return answer_of(vahepito_block(size ? size : align));
}

answer vahepito_renew(void *at, __SIZE_TYPE__ kept, __SIZE_TYPE__ size, __SIZE_TYPE__ align) {
    (void)kept;
    return answer_of(realloc(at, size ? size : align));
}

void vahepito_freed(void *at) { free(at); }
