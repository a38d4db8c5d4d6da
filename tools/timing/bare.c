/* What two desks can't do without, and nothing else: at a line it writes and syncs twice, and sends a datagram; once it has
   both its own and the other's datagram of a place, it says `PLACE agreed`.

   usage: bare FILE PORT OTHER_PORT */
#include <arpa/inet.h>
#include <fcntl.h>
#include <poll.h>
#include <stdio.h>
#include <stdlib.h>
#include <sys/socket.h>
#include <unistd.h>

static struct sockaddr_in at(const char *port) {
    struct sockaddr_in it = {.sin_family = AF_INET, .sin_port = htons(atoi(port))};
    it.sin_addr.s_addr = htonl(INADDR_LOOPBACK);
    return it;
}

int main(int count, char **words) {
    if (count != 4) return 1;
    int file = open(words[1], O_RDWR | O_CREAT, 0600), net = socket(AF_INET, SOCK_DGRAM, 0);
    struct sockaddr_in here = at(words[2]), other = at(words[3]);
    if (file < 0 || net < 0 || bind(net, (struct sockaddr *)&here, sizeof here)) return 3;
    char line[128], slot[64] = "a vote";
    for (int place = 0, own = 0, theirs = 0;;) {
        struct pollfd asked[2] = {{0, POLLIN, 0}, {net, POLLIN, 0}};
        if (poll(asked, 2, -1) < 0) return 3;
        if (asked[0].revents) {
            if (read(0, line, sizeof line) <= 0) return 0;
            if (pwrite(file, slot, 63, 64 * own) != 63 || fsync(file)) return 3;
            if (pwrite(file, slot, 1, 64 * own + 63) != 1 || fsync(file)) return 3;
            own++;
            sendto(net, slot, sizeof slot, 0, (struct sockaddr *)&other, sizeof other);
        }
        if (asked[1].revents) theirs += recv(net, line, sizeof line, 0) == 64;
        for (; place < own && place < theirs; place++) {
            printf("%d agreed\n", place);
            fflush(stdout);
        }
    }
}
