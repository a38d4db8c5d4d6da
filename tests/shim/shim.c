/* Stands between a program and the kernel (LD_PRELOAD): notes each call that reaches a file, a stream or the network,
   has one fail, and can play a program whose calls are wrong. It needs no header of a system's, and Linux on x86-64 or aarch64.

   SHIM_LOG   the file that gets a line a call:
                  CALL LABEL RESULT ERRNO INODE OFFSET DATA
              What isn't known of a call is `-`. LABEL is the last name of the path, or `stdin`, `stdout`, `stderr`,
              `socket`, `page` (a board's listener, its viewers, and what waits for them), `random`. DATA is what was written or sent, in hexadecimal; of `open` the path, and `new:` before it
              where it made the file, `empty:` where it emptied it; of `rename` both paths.
   SHIM_FAIL  CALL,LABEL,N,HOW: the N-th such call fails (0: the first and each third one behind it). HOW is an errno's number; `short`: half
              of the bytes are taken; `torn`: half of them are, and it answers EIO; `made`: it is made, and answers EIO.
   SHIM_WRONG plays a wrong program: what it doesn't do isn't noted.
                  no-sync         a file's sync does nothing
                  one-sync        each second sync of a file does nothing
                  late-sync       a file's sync is made after the next datagram was sent
                  no-folder-sync  a folder's sync does nothing
                  half-offset     a file is written at half the offset
                  swallow         a failure of SHIM_FAIL isn't told to the program
              or an odd machine:
                  slow-sync       behind the first datagram each sync of a file takes 1.5 s
                  other-numbers   each rename gives all files other inode numbers */

#include "kernel.h"
enum { EIO = 5, CREATE = 0100, TRUNCATE = 01000, KIND = 0170000, REGULAR = 0100000, SOCKETS = 0140000, PIPES = 0010000,
       DEVICES = 0020000 };

#include "environment.h"
extern int *__errno_location(void);
extern void *dlsym(void *, const char *);

/* ---- the plan, from the environment ---- */

static const char *log_path, *plan, *wrong;
static int log_file = -1;
static int is_ready, calls_met, syncs_met, owed_sync = -1, has_sent, renames;

static int same(const char *a, const char *b) {
    while (*a && *a == *b) a++, b++;
    return *a == *b;
}

static int is_wrong(const char *how) { return wrong && same(wrong, how); }

static void put(const char *text);
static void put_line(void);

static void ready(void) {
    if (is_ready) return;
    is_ready = 1;
    log_path = named("SHIM_LOG"), plan = named("SHIM_FAIL"), wrong = named("SHIM_WRONG");
    if (!log_path) return;
    number opened = call(OPEN, (number)log_path, 02002101, 0600, 0, 0, 0); /* write, create, append, close on exec */
    log_file = call(FCNTL, opened, 1030, 700, 0, 0, 0);                     /* out of the program's way */
    call(CLOSE, opened, 0, 0, 0, 0, 0);
    put("start - 0 0 - - -");
    put_line();
}

__attribute__((constructor)) static void begin(void) { ready(); }

/* Whether the field at `at` of the plan is this text; `at` goes behind it. */
static int takes(const char **at, const char *text) {
    const char *it = *at;
    while (*text && *it == *text) it++, text++;
    if (*text || (*it && *it != ',')) return 0;
    *at = *it ? it + 1 : it;
    return 1;
}

static number digits(const char **at) {
    number n = 0;
    while (**at >= '0' && **at <= '9') n = 10 * n + (*(*at)++ - '0');
    return n;
}

/* How this call is to fail: 0 where it isn't, an errno, or one of these. */
enum { SHORT = 1001, TORN = 1002, MADE = 1003 };

static int how_planned(const char *name, const char *label) {
    ready();
    const char *at = plan;
    if (!at || !takes(&at, name) || !takes(&at, label)) return 0;
    number which = digits(&at);
    calls_met++;
    if (which ? calls_met != which : calls_met % 3 != 1) return 0;
    at++;
    if (same(at, "short")) return SHORT;
    if (same(at, "torn")) return TORN;
    if (same(at, "made")) return MADE;
    return digits(&at);
}

/* Whether a call that fails so isn't made at all. */
static int is_left_out(int how) { return how && how < SHORT; }

/* What the kernel would answer to a call that fails so; else this is what it answered. */
static number failed(int how, number answer) { return is_left_out(how) ? -how : how == TORN || how == MADE ? -EIO : answer; }

/* ---- the log ---- */

static char line[1 << 21];
static int used;

static void put(const char *text) {
    while (*text && used < (int)sizeof line - 8) line[used++] = *text++;
}

static const char *digits_of(number n, char *text) {
    int at = 23;
    word left = n < 0 ? -(word)n : (word)n;
    text[at] = 0;
    do text[--at] = '0' + left % 10; while (left /= 10);
    if (n < 0) text[--at] = '-';
    return text + at;
}

static void put_number(number n) {
    char text[24];
    put(digits_of(n, text));
}

static void put_line(void) {
    line[used++] = '\n';
    if (log_file >= 0) call(WRITE, log_file, (number)line, used, 0, 0, 0);
    used = 0;
}

static void put_bytes(const unsigned char *bytes, number count) {
    if (count <= 0) put("-");
    for (number at = 0; at < count && used < (int)sizeof line - 8; at++) {
        line[used++] = "0123456789abcdef"[bytes[at] >> 4];
        line[used++] = "0123456789abcdef"[bytes[at] & 15];
    }
}

static void put_known(number n) {
    if (n < 0) put("-");
    else put_number(n);
    put(" ");
}

/* CALL LABEL RESULT ERRNO INODE OFFSET and a space, of a kernel's answer. */
static void put_call(const char *name, const char *label, number answer, number inode, number offset) {
    put(name), put(" "), put(label), put(" ");
    put_number(answer < 0 ? -1 : answer), put(" "), put_number(answer < 0 ? -answer : 0), put(" ");
    put_known(inode), put_known(offset);
}

static void note(const char *name, const char *label, number answer, number inode) {
    put_call(name, label, answer, inode, -1), put("-"), put_line();
}

/* What the program gets for a kernel's answer. */
static number told(number answer) {
    if (answer >= 0) return answer;
    *__errno_location() = -answer;
    return -1;
}

/* ---- what a descriptor is ---- */

struct file { number inode; unsigned mode; char label[256]; };

static const char *last_name(const char *path) {
    const char *name = path;
    for (; *path; path++)
        if (*path == '/' && path[1]) name = path + 1;
    return name;
}

static void copy_label(char *to, const char *from) {
    int at = 0;
    for (; from[at] && at < 255; at++) to[at] = from[at] == ' ' ? '_' : from[at];
    to[at] = 0;
}

static const char *label_of_path(const char *path) { return same(path, "/dev/stdin") ? "stdin" : last_name(path); }

/* Whether this is the kind of a stream's socket, which only a page has. */
static const char *label_of_socket(int kind) { return (kind & 15) == 1 ? "page" : "socket"; }

static int kind_of_socket(int fd) {
    int kind = 0;
    unsigned length = sizeof kind;
    call(GETSOCKOPT, fd, 1, 3, (number)&kind, (number)&length, 0);
    return kind;
}

static const char *label_of(int fd, unsigned kind, const char *path) {
    if (fd <= 2) return fd == 0 ? "stdin" : fd == 1 ? "stdout" : "stderr";
    if (kind == SOCKETS) return label_of_socket(kind_of_socket(fd));
    if (same(path, "anon_inode:[eventpoll]")) return "page";
    if (kind == PIPES || kind == DEVICES) return same(path, "/dev/null") ? "null" : "stdin";
    return last_name(path);
}

/* A descriptor's inode, kind and label. */
static struct file file_of(int fd) {
    struct file it = { -1, 0, "-" };
    word stat[32] = { 0 };
    char proc[40] = "/proc/self/fd/", path[4096];
    if (call(FSTAT, fd, (number)stat, 0, 0, 0, 0) == 0) it.inode = stat[1], it.mode = (unsigned)stat[3];
    char text[24];
    const char *name = digits_of(fd, text);
    for (int at = 14; (proc[at] = *name); at++) name++;
    number length = call(READLINK, (number)proc, (number)path, sizeof path - 1, 0, 0, 0);
    path[length > 0 ? length : 0] = 0;
    copy_label(it.label, label_of(fd, it.mode & KIND, path));
    return it;
}

static int is_regular(const struct file *it) { return (it->mode & KIND) == REGULAR; }

/* A call of a descriptor that does nothing but succeed or fail. */
static number simple(const char *name, int which, int fd, number b, number c, number d, number e) {
    struct file it = file_of(fd);
    int how = how_planned(name, it.label);
    number answer = failed(how, is_left_out(how) ? 0 : call(which, fd, b, c, d, e, 0));
    note(name, it.label, answer, it.inode);
    return told(answer);
}

/* ---- files ---- */

int open(const char *path, int flags, unsigned mode) {
    int how = how_planned("open", label_of_path(path));
    word stat[32];
    int was_there = call(STAT, (number)path, (number)stat, 0, 0, 0, 0) == 0;
    number answer = failed(how, is_left_out(how) ? 0 : call(OPEN, (number)path, flags, mode, 0, 0, 0));
    put_call("open", label_of_path(path), answer, answer < 0 ? -1 : file_of((int)answer).inode, -1);
    if (answer >= 0 && (flags & CREATE) && !was_there) put("new:");
    else if (answer >= 0 && (flags & TRUNCATE)) put("empty:");
    put(path), put_line();
    return (int)told(answer);
}

int open64(const char *path, int flags, unsigned mode) { return open(path, flags, mode); }

/* A write at an offset, or where the file stands. */
static number write_once(int which, int fd, const void *bytes, number count, number offset) {
    struct file it = file_of(fd);
    int how = how_planned("write", it.label), is_placed = is_regular(&it);
    number at = which == PWRITE ? offset : is_placed ? call(LSEEK, fd, 0, 1, 0, 0, 0) : -1;
    if (is_placed && is_wrong("half-offset")) {
        at = at / 2;
        if (which == WRITE) call(LSEEK, fd, at, 0, 0, 0, 0);
    }
    number most = how == SHORT || how == TORN ? (count + 1) / 2 : count;
    number made = is_left_out(how) ? 0 : call(which, fd, (number)bytes, most, at, 0, 0);
    number answer = failed(how, made);
    put_call("write", it.label, answer, it.inode, at), put_bytes(bytes, made), put_line();
    return answer < 0 && how && is_wrong("swallow") ? count : told(answer);
}

number write(int fd, const void *bytes, word count) { return write_once(WRITE, fd, bytes, count, -1); }
number __write(int fd, const void *bytes, word count) { return write_once(WRITE, fd, bytes, count, -1); }
number pwrite(int fd, const void *bytes, word count, number at) { return write_once(PWRITE, fd, bytes, count, at); }
number pwrite64(int fd, const void *bytes, word count, number at) { return write_once(PWRITE, fd, bytes, count, at); }

static number read_once(int which, int fd, void *bytes, number count, number at) {
    struct file it = file_of(fd);
    int how = how_planned("read", it.label);
    number most = how == SHORT ? 1 : count;
    number answer = failed(how, is_left_out(how) ? 0 : call(which, fd, (number)bytes, most, at, 0, 0));
    note("read", it.label, answer, it.inode);
    return told(answer);
}

number read(int fd, void *bytes, word count) { return read_once(READ, fd, bytes, count, 0); }
number pread(int fd, void *bytes, word count, number at) { return read_once(PREAD, fd, bytes, count, at); }
number pread64(int fd, void *bytes, word count, number at) { return read_once(PREAD, fd, bytes, count, at); }

/* Whether a wrong program leaves out this sync, or puts it off. */
static int skips_sync(int fd) {
    struct file it = file_of(fd);
    ready();
    if (!is_regular(&it)) return is_wrong("no-folder-sync");
    if (is_wrong("late-sync")) owed_sync = fd;
    return is_wrong("no-sync") || is_wrong("late-sync") || (is_wrong("one-sync") && ++syncs_met % 2);
}

static int sync_once(int which, int fd) {
    if (skips_sync(fd)) return 0;
    struct file it = file_of(fd);
    number slow[2] = { 1, 500000000 };
    if (is_wrong("slow-sync") && has_sent && is_regular(&it)) call(NANOSLEEP, (number)slow, 0, 0, 0, 0, 0);
    int how = how_planned("fsync", it.label);
    number answer = failed(how, is_left_out(how) ? 0 : call(which, fd, 0, 0, 0, 0, 0));
    note("fsync", it.label, answer, it.inode);
    return how && is_wrong("swallow") ? 0 : (int)told(answer);
}

int fsync(int fd) { return sync_once(FSYNC, fd); }
int fdatasync(int fd) { return sync_once(FDATASYNC, fd); }

/* Its offset is the length, where the file was cut. */
int ftruncate(int fd, number length) {
    struct file it = file_of(fd);
    int how = how_planned("ftruncate", it.label);
    number made = is_left_out(how) ? -how : call(FTRUNCATE, fd, length, 0, 0, 0, 0);
    put_call("ftruncate", it.label, failed(how, made), it.inode, made ? -1 : length), put("-"), put_line();
    return (int)told(failed(how, made));
}

int ftruncate64(int fd, number length) { return ftruncate(fd, length); }

number lseek(int fd, number offset, int whence) { return simple("lseek", LSEEK, fd, offset, whence, 0, 0); }
number lseek64(int fd, number offset, int whence) { return lseek(fd, offset, whence); }
int flock(int fd, int operation) { return (int)simple("flock", FLOCK, fd, operation, 0, 0, 0); }
int fchmod(int fd, unsigned mode) { return (int)simple("fchmod", FCHMOD, fd, mode, 0, 0, 0); }
int close(int fd) { return fd >= 0 && fd == log_file ? 0 : (int)simple("close", CLOSE, fd, 0, 0, 0, 0); }
int fcntl(int fd, int what, number value) { return (int)simple("fcntl", FCNTL, fd, what, value, 0, 0); }
int fcntl64(int fd, int what, number value) { return fcntl(fd, what, value); }
int ioctl(int fd, word what, number value) { return (int)simple("ioctl", IOCTL, fd, what, value, 0, 0); }

int statx(int fd, const char *path, int flags, unsigned mask, void *found) {
    struct file it = { -1, 0, "" };
    if (*path) copy_label(it.label, label_of_path(path));
    else it = file_of(fd);
    int how = how_planned("statx", it.label);
    number answer = failed(how, is_left_out(how) ? 0 : call(STATX, fd, (number)path, flags, mask, (number)found, 0));
    note("statx", it.label, answer, it.inode);
    if (answer == 0 && is_wrong("other-numbers")) ((word *)found)[4] += 1000000 * (word)renames; /* its inode */
    return (int)told(answer);
}

/* Its offset is 1 where the name was changed. */
static int change_name(const char *name, int which, const char *path, const char *to) {
    const char *label = last_name(to ? to : path);
    int how = how_planned(name, label);
    number made = is_left_out(how) ? -how : call(which, (number)path, (number)to, 0, 0, 0, 0);
    if (to && made == 0) renames++;
    put_call(name, label, failed(how, made), -1, made == 0), put(path);
    if (to) put(" "), put(to);
    put_line();
    return (int)told(failed(how, made));
}

int rename(const char *from, const char *to) { return change_name("rename", RENAME, from, to); }
int unlink(const char *path) { return change_name("unlink", UNLINK, path, 0); }

char *realpath(const char *path, char *whole) {
    char *(*next)(const char *, char *) = (char *(*)(const char *, char *))dlsym((void *)-1L, "realpath");
    int how = how_planned("realpath", last_name(path));
    note("realpath", last_name(path), failed(how, 0), -1);
    return told(failed(how, 0)) < 0 ? 0 : next(path, whole);
}

/* Random bytes, of a label of their own. */
int getentropy(void *bytes, word count) {
    int (*next)(void *, word) = (int (*)(void *, word))dlsym((void *)-1L, "getentropy");
    int how = how_planned("getentropy", "random");
    note("getentropy", "random", failed(how, 0), -1);
    return told(failed(how, 0)) < 0 ? -1 : next(bytes, count);
}

/* ---- the network ---- */

int socket(int family, int kind, int protocol) {
    const char *label = label_of_socket(kind);
    int how = how_planned("socket", label);
    number answer = failed(how, is_left_out(how) ? 0 : call(SOCKET, family, kind, protocol, 0, 0, 0));
    note("socket", label, answer, -1);
    return (int)told(answer);
}

int bind(int fd, const void *to, unsigned length) { return (int)simple("bind", BIND, fd, (number)to, length, 0, 0); }
int getsockname(int fd, void *to, unsigned *length) {
    return (int)simple("getsockname", GETSOCKNAME, fd, (number)to, (number)length, 0, 0);
}
int setsockopt(int fd, int level, int name, const void *value, unsigned length) {
    return (int)simple("setsockopt", SETSOCKOPT, fd, level, name, (number)value, length);
}

int listen(int fd, int most) { return (int)simple("listen", LISTEN, fd, most, 0, 0, 0); }
int shutdown(int fd, int how) { return (int)simple("shutdown", SHUTDOWN, fd, how, 0, 0, 0); }
int accept4(int fd, void *from, unsigned *length, int flags) {
    return (int)simple("accept4", ACCEPT4, fd, (number)from, (number)length, flags, 0);
}
int epoll_ctl(int fd, int what, int of, void *event) { return (int)simple("epoll_ctl", EPOLL_CTL, fd, what, of, (number)event, 0); }
int epoll_wait(int fd, void *events, int most, int wait) {
    return (int)simple("epoll_wait", EPOLL_WAIT, fd, (number)events, most, wait, 0);
}

int epoll_create1(int flags) {
    int how = how_planned("epoll_create1", "page");
    number answer = failed(how, is_left_out(how) ? 0 : call(EPOLL_CREATE1, flags, 0, 0, 0, 0, 0));
    note("epoll_create1", "page", answer, -1);
    return (int)told(answer);
}

/* What goes to a viewer and comes from it, half of it where that is planned. */
static number moved(const char *name, int which, int fd, const void *bytes, number count, int flags) {
    struct file it = file_of(fd);
    int how = how_planned(name, it.label);
    number most = how == SHORT ? (count + 1) / 2 : count;
    number made = failed(how, is_left_out(how) ? 0 : call(which, fd, (number)bytes, most, flags, 0, 0));
    note(name, it.label, made, it.inode);
    return told(made);
}

number send(int fd, const void *bytes, word count, int flags) { return moved("send", SENDTO, fd, bytes, count, flags); }
number recv(int fd, void *bytes, word count, int flags) { return moved("recv", RECVFROM, fd, bytes, count, flags); }

/* A wait for a descriptor alone is one for the keyboard, or for a standard stream that is written. */
int poll(void *asked, word count, int wait) {
    const char *label = count > 1 ? "socket" : *(int *)asked == 1 ? "stdout" : *(int *)asked == 2 ? "stderr" : "stdin";
    int how = how_planned("poll", label);
    number answer = failed(how, is_left_out(how) ? 0 : call(POLL, (number)asked, count, wait, 0, 0, 0));
    note("poll", label, answer, -1);
    return (int)told(answer);
}

/* Makes the sync that a wrong program put off. */
static void sync_late(void) {
    if (owed_sync < 0) return;
    struct file it = file_of(owed_sync);
    note("fsync", it.label, call(FSYNC, owed_sync, 0, 0, 0, 0, 0), it.inode);
    owed_sync = -1;
}

number sendto(int fd, const void *bytes, word count, int flags, const void *to, unsigned length) {
    int how = how_planned("sendto", "socket");
    number made = is_left_out(how) ? 0 : call(SENDTO, fd, (number)bytes, count, flags, (number)to, length);
    has_sent = 1;
    put_call("sendto", "socket", failed(how, made), -1, -1), put_bytes(bytes, count), put_line();
    sync_late();
    return told(failed(how, made));
}

number recvfrom(int fd, void *bytes, word count, int flags, void *from, unsigned *length) {
    int how = how_planned("recvfrom", "socket");
    number most = is_left_out(how) ? 0 : call(RECVFROM, fd, (number)bytes, count, flags, (number)from, (number)length);
    note("recvfrom", "socket", failed(how, most), -1);
    return told(failed(how, most));
}
