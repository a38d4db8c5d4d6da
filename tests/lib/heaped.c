/* web/heap.c on this machine, for tests/kernel: its memory is a field of so many pages, and its numbers of 128 bits are halves. */
#define memcpy heap_memcpy
#define memmove heap_memmove
#define memset heap_memset
#define memcmp heap_memcmp
#define __multi3 heap_product
#define __udivti3 heap_quotient
#define __ashlti3 heap_left
#define __lshrti3 heap_right
#define __heap_base heap_room
#define __builtin_wasm_memory_size(which) (((unsigned long)heap_field >> 16) + pages_now)
#define __builtin_wasm_memory_grow(which, more) grown(more)
#define MOST_PAGES 512ul

unsigned char heap_field[MOST_PAGES << 16] __asm__("heap_room") __attribute__((aligned(65536)));
static unsigned long pages_now = 2;

static unsigned long grown(unsigned long more) {
    if (more > MOST_PAGES - pages_now) return -1ul;
    pages_now += more;
    return pages_now - more;
}

#include "../../web/heap.c"

static u128 whole(u64 high, u64 low) { return (u128)high << 64 | low; }

/* What the N-th of them comes to of these, as two halves, the lower one first. */
void heap_number(int which, const u64 *given, u64 *made) {
    u128 a = whole(given[1], given[0]), b = whole(given[3], given[2]);
    u128 found = which == 0 ? (u128)__multi3((i128)a, (i128)b) : which == 1 ? __udivti3(a, b) : which == 2 ? (u128)__ashlti3((i128)a, (int)given[2]) : (u128)__lshrti3((i128)a, (int)given[2]);
    made[0] = (u64)found, made[1] = (u64)(found >> 64);
}

u64 heap_taken(u64 size, u64 alignment) {
    struct tried it = rattle_alloc(size, alignment);
    return it.is_well ? (u64)it.at : 0;
}
u64 heap_another(u64 at, u64 kept, u64 size, u64 alignment) {
    struct tried it = rattle_realloc((void *)at, kept, size, alignment);
    return it.is_well ? (u64)it.at : 0;
}
void heap_let_go(u64 at) { rattle_dealloc((void *)at); }
