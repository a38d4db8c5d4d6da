/* What the module has of its own beside the program: a heap, and what a compiler calls for bytes and for numbers of 128 bits.
   A block lies at a multiple of 16. Its size is of a class, a power of two or one and a half of one, which stands before it.
   Free blocks of a class are a list. The memory only grows. */
typedef unsigned long size_t;
typedef unsigned long u64;
extern unsigned char __heap_base;

#define PAGE 65536ul
#define LEAST_PAGES 16ul
#define CLASSES 96
#define MOST (1ul << 40)

struct block { u64 size_class, spare; };
struct room { struct room *next; };

static unsigned char *next_byte, *end;
static struct room *rooms[CLASSES];
static unsigned char nothing[16] __attribute__((aligned(16)));

static u64 size_of_class(u64 size_class) { return (size_class & 1 ? 24ul : 16ul) << (size_class >> 1); }

static u64 class_of(u64 size) {
    u64 size_class = 0;
    while (size_of_class(size_class) < size) size_class++;
    return size_class;
}

/* So many bytes that nothing had before; none where the memory can't grow. */
static void *fresh(u64 size) {
    if (!next_byte) {
        next_byte = (unsigned char *)(((u64)&__heap_base + 15) & ~15ul);
        end = (unsigned char *)(__builtin_wasm_memory_size(0) * PAGE);
    }
    size = (size + 15) & ~15ul;
    if ((u64)(end - next_byte) < size) {
        u64 pages = (size - (u64)(end - next_byte) + PAGE - 1) / PAGE;
        if (pages < LEAST_PAGES) pages = LEAST_PAGES;
        if (__builtin_wasm_memory_grow(0, pages) == (size_t)-1) return 0;
        end += pages * PAGE;
    }
    void *at = next_byte;
    next_byte += size;
    return at;
}

static void *taken(u64 size) {
    if (size > MOST) return 0;
    u64 size_class = class_of(size);
    struct room *room = rooms[size_class];
    if (room) {
        rooms[size_class] = room->next;
        return room;
    }
    struct block *block = fresh(sizeof *block + size_of_class(size_class));
    if (!block) return 0;
    block->size_class = size_class;
    return block + 1;
}

/* The compiler makes one instruction of each of the first three. */
void *memcpy(void *to, const void *from, size_t count) {
    __builtin_memcpy(to, from, count);
    return to;
}
void *memmove(void *to, const void *from, size_t count) {
    __builtin_memmove(to, from, count);
    return to;
}
void *memset(void *at, int byte, size_t count) {
    __builtin_memset(at, byte, count);
    return at;
}
int memcmp(const void *one, const void *other, size_t count) {
    const unsigned char *a = one, *b = other;
    for (size_t i = 0; i < count; i++)
        if (a[i] != b[i]) return a[i] < b[i] ? -1 : 1;
    return 0;
}

/* What the kit's archive of C has of the heap: whether there was memory, and where. */
struct tried { u64 is_well; void *at; };

static struct tried told(void *at) { return (struct tried){at != 0, at ? at : nothing}; }

struct tried rattle_alloc(u64 size, u64 alignment) { return told(taken(size ? size : alignment)); }

void rattle_dealloc(void *at) {
    if (!at) return;
    u64 size_class = ((struct block *)at)[-1].size_class;
    struct room *room = at;
    room->next = rooms[size_class];
    rooms[size_class] = room;
}

/* A block of another size that begins with the first `kept` bytes of the old one. Where there is no memory the old one stays. */
struct tried rattle_realloc(void *at, u64 kept, u64 size, u64 alignment) {
    u64 wanted = size ? size : alignment;
    u64 had = size_of_class(((struct block *)at)[-1].size_class);
    if (wanted <= had && had <= 2 * wanted + 16) return told(at);
    void *other = taken(wanted);
    if (!other) return told(0);
    memcpy(other, at, kept < wanted ? kept : wanted);
    rattle_dealloc(at);
    return told(other);
}

/* Numbers of 128 bits. */
typedef __int128 i128;
typedef unsigned __int128 u128;
union both { u128 all; struct { u64 low, high; } half; };

i128 __multi3(i128 a, i128 b) {
    union both x = {.all = (u128)a}, y = {.all = (u128)b}, z;
    u64 a0 = x.half.low & 0xffffffff, a1 = x.half.low >> 32, b0 = y.half.low & 0xffffffff, b1 = y.half.low >> 32;
    u64 low = a0 * b0, middle = a1 * b0 + (low >> 32), more = a0 * b1 + (middle & 0xffffffff);
    z.half.low = (more << 32) | (low & 0xffffffff);
    z.half.high = a1 * b1 + (middle >> 32) + (more >> 32) + x.half.high * y.half.low + x.half.low * y.half.high;
    return (i128)z.all;
}
i128 __ashlti3(i128 a, int by) {
    union both x = {.all = (u128)a}, z;
    if (by == 0) return a;
    if (by & 64) {
        z.half.high = x.half.low << (by & 63);
        z.half.low = 0;
    } else {
        z.half.low = x.half.low << by;
        z.half.high = (x.half.high << by) | (x.half.low >> (64 - by));
    }
    return (i128)z.all;
}
i128 __lshrti3(i128 a, int by) {
    union both x = {.all = (u128)a}, z;
    if (by == 0) return a;
    if (by & 64) {
        z.half.low = x.half.high >> (by & 63);
        z.half.high = 0;
    } else {
        z.half.high = x.half.high >> by;
        z.half.low = (x.half.low >> by) | (x.half.high << (64 - by));
    }
    return (i128)z.all;
}
u128 __udivti3(u128 a, u128 b) {
    u128 quotient = 0, rest = 0;
    for (int i = 127; i >= 0; i--) {
        u64 carried = (u64)(rest >> 127);
        rest = (rest << 1) | ((a >> i) & 1);
        if (carried || rest >= b) {
            rest -= b;
            quotient |= (u128)1 << i;
        }
    }
    return quotient;
}
