"""Strangers who come to a station's page so often a second, until standard input ends, and stay for as long as they may: those
that ask for nothing, those that watch, and those that ask by a byte at a time. It prints a line once 300 came, or those of seven seconds, and
at the end how many did.

usage: assault.py HOST PORT (idle|watch|slow) RATE [FROM]
"""
import select, socket, sys, time

sys.dont_write_bytecode = True
place, kind, rate = (sys.argv[1], int(sys.argv[2])), sys.argv[3], float(sys.argv[4])
source = (sys.argv[5], 0) if len(sys.argv) > 5 else None
CROWD = round(min(300, 7 * rate))
HEAD = f"GET /events HTTP/1.1\r\nHost: {place[0]}:{place[1]}\r\n\r\n".encode()


def come():
    """One who comes, and what they have still to say."""
    it = socket.socket()
    if source:
        it.bind(source)
    it.settimeout(1)
    it.connect(place)
    it.setblocking(False)
    if kind == "watch":
        it.send(HEAD)
    return it


def leave(it):
    poll.unregister(it)
    here.pop(it.fileno())
    it.close()


poll, here, count, begun, said = select.poll(), {}, 0, time.time(), time.time()
poll.register(sys.stdin, select.POLLIN)
while True:
    if time.time() >= begun + count / rate:
        count += 1
        if count == CROWD:
            print("there", flush=True)
        try:
            it = come()
            here[it.fileno()] = (it, iter(HEAD))
            poll.register(it, select.POLLIN | select.POLLRDHUP)
        except OSError:
            pass
    if kind == "slow" and time.time() > said + 0.2:
        said = time.time()
        for it, left in list(here.values()):
            try:
                it.send(bytes([next(left, 10)]))
            except OSError:
                leave(it)
    found = poll.poll(max(0, min(50, 1000 * (begun + count / rate - time.time()))))
    if any(file == sys.stdin.fileno() for file, _ in found):
        break
    for file, what in found:
        try:
            if what & (select.POLLRDHUP | select.POLLERR | select.POLLHUP) or not here[file][0].recv(1 << 16):
                leave(here[file][0])
        except OSError:
            leave(here[file][0])
print(count)
