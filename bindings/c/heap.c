/* The heap that libsewarqo asks a program for, by the C library's malloc, realloc and free. A program
   with an allocator of its own gives these three functions in place of this file: they are one
   allocator's, and align a block to each power of two up to 16 that divides its size. */
#include <stdbool.h>
#include <stdlib.h>

struct block { bool is_there; void *bytes; };

static char nowhere[16]; /* (what a refused request points to, since a block is never null) */

static struct block block_of(void *bytes) {
    struct block block = {bytes != NULL, bytes ? bytes : nowhere};
    return block;
}

struct block rattle_alloc(size_t size, size_t align) {
    return block_of(malloc(size ? size : align));
}

struct block rattle_realloc(void *bytes, size_t kept, size_t size, size_t align) {
    (void)kept;
    return block_of(realloc(bytes, size ? size : align));
}

void rattle_dealloc(void *bytes) { free(bytes); }
