/* A network between two desks and boards: each datagram comes a fixed time later, or is lost. It counts them all.

   usage: relay PORT_OF_A PORT_OF_B [PORT_OF_A_BOARD..]

   It prints a line `FROM TO PORT` for each two stations, by their numbers in these words, of which one is a desk: there FROM
   sends what is for TO. A line `DELAY LOSS` on its input is how many microseconds a datagram takes from now on, and how many in
   a hundred are lost, by one and the same sequence of numbers; it answers with how many came before. */
#include <arpa/inet.h>
#include <poll.h>
#include <stdint.h>
#include <stdio.h>
#include <stdlib.h>
#include <string.h>
#include <sys/socket.h>
#include <time.h>
#include <unistd.h>

enum { MOST = 8, HELD = 65536, SIZE = 96 };

struct held {
    int64_t due;
    int from, to, size;
    char data[SIZE];
};

static struct held held[HELD];
static unsigned first, last;
static int stations, lines[MOST][MOST];
static struct sockaddr_in there[MOST];
static int64_t delay;
static uint32_t loss, chance = 1;
static long count;

static int64_t now(void) {
    struct timespec it;
    clock_gettime(CLOCK_MONOTONIC, &it);
    return it.tv_sec * 1000000LL + it.tv_nsec / 1000;
}

static struct sockaddr_in at(int port) {
    struct sockaddr_in it = {.sin_family = AF_INET, .sin_port = htons(port)};
    it.sin_addr.s_addr = htonl(INADDR_LOOPBACK);
    return it;
}

static int line(int from, int to) {
    struct sockaddr_in it = at(0);
    socklen_t size = sizeof it;
    int room = 4000000, net = socket(AF_INET, SOCK_DGRAM | SOCK_NONBLOCK, 0);
    setsockopt(net, SOL_SOCKET, SO_RCVBUF, &room, sizeof room);
    if (net < 0 || bind(net, (struct sockaddr *)&it, size) || getsockname(net, (struct sockaddr *)&it, &size)) exit(3);
    printf("%d %d %d\n", from, to, ntohs(it.sin_port));
    return net;
}

static int is_lost(void) {
    chance = chance * 1103515245 + 12345;
    return (chance >> 16) % 100 < loss;
}

static void take(int from, int to) {
    for (;;) {
        struct held *it = &held[last % HELD];
        it->size = recv(lines[from][to], it->data, SIZE, 0);
        if (it->size < 0) return;
        count++;
        if (is_lost() || last - first == HELD - 1) continue;
        it->due = now() + delay, it->from = from, it->to = to, last++;
    }
}

static void give(void) {
    for (; first != last && held[first % HELD].due <= now(); first++) {
        struct held *it = &held[first % HELD];
        sendto(lines[it->to][it->from], it->data, it->size, 0, (struct sockaddr *)&there[it->to], sizeof there[0]);
    }
}

static int obey(void) {
    char words[64];
    if (!fgets(words, sizeof words, stdin)) return 0;
    printf("%ld\n", count);
    fflush(stdout);
    delay = strtol(words, 0, 10), loss = strtol(strchr(words, ' '), 0, 10), chance = 1, first = last;
    return 1;
}

int main(int words, char **word) {
    struct pollfd asked[1 + MOST * MOST] = {{0, POLLIN, 0}};
    int from[1 + MOST * MOST], to[1 + MOST * MOST], open = 1;
    if ((stations = words - 1) > MOST) return 2;
    for (int i = 0; i < stations; i++) there[i] = at(atoi(word[i + 1]));
    for (int i = 0; i < stations; i++)
        for (int j = 0; j < stations; j++)
            if (i != j && (i < 2 || j < 2)) {
                lines[i][j] = line(i, j), from[open] = i, to[open] = j;
                asked[open++] = (struct pollfd){lines[i][j], POLLIN, 0};
            }
    printf("\n");
    fflush(stdout);
    for (;;) {
        int64_t wait = first == last ? 1000000 : held[first % HELD].due - now();
        struct timespec until = {wait > 0 ? wait / 1000000 : 0, wait > 0 ? wait % 1000000 * 1000 : 0};
        if (ppoll(asked, open, &until, 0) < 0) return 3;
        if (asked[0].revents && !obey()) return 0;
        for (int i = 1; i < open; i++)
            if (asked[i].revents) take(from[i], to[i]);
        give();
    }
}
