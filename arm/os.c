/* What the kit's archive libos_c.a has for x86-64 and the program calls, for another processor. The kit has no source of it:
   tests/arm holds each of these functions against the archive's, on x86-64. */
#define _GNU_SOURCE
#include <errno.h>
#include <stdbool.h>
#include <stddef.h>
#include <stdint.h>
#include <stdlib.h>
#include <string.h>
#include <sys/epoll.h>
#include <sys/ioctl.h>
#include <sys/types.h>

#define NONE (-1)
#define NO_ROOM (-2)
#define MOST_EVENTS ((size_t)1 << 24)

/* The program's words, which the C library hands to each function of .init_array. */
static int count;
static char **words;
static void keep(int argc, char **argv) {
    count = argc;
    words = argv;
}
__attribute__((section(".init_array"), used)) static void (*const at_start)(int, char **) = keep;

/* A text's length. Where it has no room it fills that. */
static ssize_t put(const char *text, char *at, size_t room) {
    size_t n = 0;
    for (; text[n]; n++) {
        if (n == room) return NO_ROOM;
        at[n] = text[n];
    }
    return (ssize_t)n;
}

ssize_t rattle_arg(size_t which, char *at, size_t room) {
    return which < (size_t)count && words[which] ? put(words[which], at, room) : NONE;
}

ssize_t rattle_env(const char *name, char *at, size_t room) {
    const char *value = getenv(name);
    return value ? put(value, at, room) : NONE;
}

int rattle_errno(void) { return errno; }

void rattle_set_errno(int number) { errno = number; }

int rattle_set_nonblocking(int file, bool is_on) {
    int value = is_on;
    return ioctl(file, FIONBIO, &value);
}

int rattle_epoll_ctl(int poll, int what, int file, uint32_t events, uint64_t data) {
    struct epoll_event it = {.events = events, .data.u64 = data};
    return epoll_ctl(poll, what, file, &it);
}

/* The program's events have their number at byte 8. Linux's have it at byte 4 on x86-64, and there they are shorter. */
struct told {
    uint32_t events;
    uint64_t data;
};
_Static_assert(sizeof(struct told) == 16 && offsetof(struct told, data) == 8, "the program's events");
_Static_assert(sizeof(struct epoll_event) <= sizeof(struct told), "Linux's events have room");

ssize_t rattle_epoll_wait(int poll, struct told *at, size_t room, int milliseconds) {
    int got = epoll_wait(poll, (struct epoll_event *)at, (int)(room < MOST_EVENTS ? room : MOST_EVENTS), milliseconds);
    /* from the last one on, since each lies at or behind its place */
    for (int i = got - 1; i >= 0; i--) {
        struct epoll_event it;
        memcpy(&it, (char *)at + (size_t)i * sizeof it, sizeof it);
        struct told told = {it.events, it.data.u64};
        memcpy(&at[i], &told, sizeof told);
    }
    return got;
}
