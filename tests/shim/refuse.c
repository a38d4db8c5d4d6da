/* Stands between a program and its C library (LD_PRELOAD): counts the allocations that the program asks for, and refuses
   one of them. It needs no header.

   REFUSE  the number of the one that is refused, counted from 1; 0 or none: each is made.
   COUNT   the file that gets, as the program ends, how many were asked for. */

typedef unsigned long word;

#include "environment.h"
extern void *__libc_malloc(word);
extern void *__libc_calloc(word, word);
extern void *__libc_realloc(void *, word);
extern void *__libc_memalign(word, word);
extern int open(const char *, int, ...);
extern long write(int, const void *, word);

enum { TO_WRITE = 01, CREATE = 0100, TRUNCATE = 01000, NO_MEMORY = 12 };

static word asked, refused;
static const char *count;
static int is_ready;

/* From here on the program runs, and no longer what loads it. */
__attribute__((constructor)) static void begin(void) {
    const char *number = named("REFUSE");
    while (number && *number >= '0' && *number <= '9') refused = 10 * refused + (word)(*number++ - '0');
    count = named("COUNT");
    is_ready = 1;
}

__attribute__((destructor)) static void end(void) {
    char text[24];
    int at = sizeof text;
    word left = asked;
    do text[--at] = '0' + left % 10; while (left /= 10);
    if (count) write(open(count, TO_WRITE | CREATE | TRUNCATE, 0600), text + at, sizeof text - at);
}

static int is_refused(void) { return is_ready && ++asked == refused; }

void *malloc(word size) { return is_refused() ? 0 : __libc_malloc(size); }

void *calloc(word many, word size) { return is_refused() ? 0 : __libc_calloc(many, size); }

void *realloc(void *old, word size) { return is_refused() ? 0 : __libc_realloc(old, size); }

void *memalign(word align, word size) { return is_refused() ? 0 : __libc_memalign(align, size); }

void *aligned_alloc(word align, word size) { return memalign(align, size); }

int posix_memalign(void **made, word align, word size) {
    void *it = memalign(align, size);
    if (!it) return NO_MEMORY;
    *made = it;
    return 0;
}
