/* A call of the kernel, by its number on x86-64. On aarch64 numbers are others, some calls have another form, and a
   file's kind stands elsewhere in what is told of it: there each call is made as on x86-64. */

typedef unsigned long word;
typedef long number;

enum { READ = 0, WRITE = 1, OPEN = 2, CLOSE = 3, STAT = 4, FSTAT = 5, POLL = 7, LSEEK = 8, PREAD = 17, PWRITE = 18, IOCTL = 16, SOCKET = 41,
       ACCEPT4 = 288, SENDTO = 44, RECVFROM = 45, SHUTDOWN = 48, BIND = 49, LISTEN = 50, GETSOCKNAME = 51, SETSOCKOPT = 54, GETSOCKOPT = 55,
       EPOLL_WAIT = 232, EPOLL_CTL = 233, EPOLL_CREATE1 = 291, FCNTL = 72, FLOCK = 73, FSYNC = 74, NANOSLEEP = 35,
       FDATASYNC = 75, FTRUNCATE = 77, RENAME = 82, UNLINK = 87, READLINK = 89, FCHMOD = 91, STATX = 332 };

#ifdef __x86_64__
static number call(number which, number a, number b, number c, number d, number e, number f) {
    register number r10 __asm__("r10") = d, r8 __asm__("r8") = e, r9 __asm__("r9") = f;
    number result;
    __asm__ volatile("syscall" : "=a"(result) : "a"(which), "D"(a), "S"(b), "d"(c), "r"(r10), "r"(r8), "r"(r9)
                     : "rcx", "r11", "memory");
    return result;
}
#else
enum { HERE = -100, NO_CALL = -38, PPOLL = 73, OF_SIGNALS = 8 };

static number raw(number which, number a, number b, number c, number d, number e, number f) {
    register number x8 __asm__("x8") = which, x0 __asm__("x0") = a, x1 __asm__("x1") = b, x2 __asm__("x2") = c, x3 __asm__("x3") = d,
                    x4 __asm__("x4") = e, x5 __asm__("x5") = f;
    __asm__ volatile("svc 0" : "+r"(x0) : "r"(x8), "r"(x1), "r"(x2), "r"(x3), "r"(x4), "r"(x5) : "memory");
    return x0;
}

static const short numbers[][2] = {
    { READ, 63 }, { WRITE, 64 }, { CLOSE, 57 }, { FSTAT, 80 }, { LSEEK, 62 }, { PREAD, 67 }, { PWRITE, 68 }, { IOCTL, 29 }, { SOCKET, 198 },
    { ACCEPT4, 242 }, { SENDTO, 206 }, { RECVFROM, 207 }, { SHUTDOWN, 210 }, { BIND, 200 }, { LISTEN, 201 }, { GETSOCKNAME, 204 },
    { SETSOCKOPT, 208 }, { GETSOCKOPT, 209 }, { EPOLL_CTL, 21 }, { EPOLL_CREATE1, 20 }, { FCNTL, 25 }, { FLOCK, 32 }, { FSYNC, 82 },
    { NANOSLEEP, 101 }, { FDATASYNC, 83 }, { FTRUNCATE, 46 }, { FCHMOD, 52 }, { STATX, 291 },
};

/* What is told of a file, with its kind in the fourth word. */
static number with_kind(number answer, word *found) {
    if (answer == 0) found[3] = (unsigned)found[2];
    return answer;
}

static number call(number which, number a, number b, number c, number d, number e, number f) {
    number time[2] = { c / 1000, c % 1000 * 1000000 };
    switch (which) {
    case OPEN: return raw(56, HERE, a, b, c, 0, 0);
    case STAT: return with_kind(raw(79, HERE, a, b, 0, 0, 0), (word *)b);
    case FSTAT: return with_kind(raw(80, a, b, 0, 0, 0, 0), (word *)b);
    case POLL: return raw(PPOLL, a, b, c < 0 ? 0 : (number)time, 0, OF_SIGNALS, 0);
    case EPOLL_WAIT: return raw(22, a, b, c, d, 0, OF_SIGNALS);
    case RENAME: return raw(276, HERE, a, HERE, b, 0, 0);
    case UNLINK: return raw(35, HERE, a, 0, 0, 0, 0);
    case READLINK: return raw(78, HERE, a, b, c, 0, 0);
    }
    for (unsigned at = 0; at < sizeof numbers / sizeof *numbers; at++)
        if (numbers[at][0] == which) return raw(numbers[at][1], a, b, c, d, e, f);
    return NO_CALL;
}
#endif
