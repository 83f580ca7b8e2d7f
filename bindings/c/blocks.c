/* The blocks of memory that the library asks for: part of libvahepito_heap.a, and not proved.
 *
 * The queue keeps words that different threads write at distances of 64 and 128 bytes. They share no line of the cache
 * only if the block begins where a line does, and `malloc` promises 16 bytes alone. So a block of a kilobyte and more
 * begins at a multiple of 128; `realloc` and `free` take it as any other. NULL if there is no memory.
 *
 * The toolchain's compiler, which builds it, has no headers. */
void *malloc(__SIZE_TYPE__);
int posix_memalign(void **, __SIZE_TYPE__, __SIZE_TYPE__);

void *vahepito_block(__SIZE_TYPE__ size) {
    void *at;
    if (size < 1024) return malloc(size);
    return posix_memalign(&at, 128, size) == 0 ? at : (void *)0;
}
