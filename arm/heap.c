/* What the kit's archive liblibc_c.a has for x86-64, for another processor: the heap, which is the C library's. A block of no
   bytes has as many as it is to lie at a multiple of. */
#include <stddef.h>
#include <stdint.h>
#include <stdlib.h>

struct tried {
    uint64_t is_had;
    void *block;
};
/* What stands in the place of a block that isn't had. */
static char nothing[16] __attribute__((aligned(16)));

static struct tried tried(void *block) { return (struct tried){block != NULL, block ? block : nothing}; }

struct tried rattle_alloc(size_t size, size_t multiple) { return tried(malloc(size ? size : multiple)); }

struct tried rattle_realloc(void *block, size_t kept, size_t size, size_t multiple) {
    (void)kept;
    return tried(realloc(block, size ? size : multiple));
}

void rattle_dealloc(void *block) { free(block); }
