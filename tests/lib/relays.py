"""Networks on loopback between stations: what one sends another passes, or is lost, comes twice, late or changed, or is cut in two.
What passed is kept."""
import heapq, itertools, random, select, socket, threading, time
from .places import LOOPBACK
from .ports import STREAMS, at, drained, free_port, peer, split

ROOM = 4_000_000
VOTE, KIND, PLACE, POSITION = 1, 3, slice(13, 17), slice(13, 19)


def passes_all(one, other, data):
    return True


class Relay(threading.Thread):
    """A network of datagrams between named stations, which finds each at its port. Datagrams take `delay` seconds and at random up to
    `late` more; at random some are lost and some come twice. What `passes` doesn't say of one is lost."""

    def __init__(self, ports, delay=0.0, late=0.0, loss=0.0, repeats=0.0, passes=passes_all, changes=lambda data: data):
        super().__init__(daemon=True)
        self.ports, self.delay, self.late, self.loss, self.repeats = ports, delay, late, loss, repeats
        self.passes, self.changes, self.ends, self.numbers = passes, changes, False, itertools.count()
        self.count, self.passed, self.due, self.lock = 0, [], [], threading.Lock()
        self.sockets = {pair: peer(room=ROOM) for pair in itertools.permutations(ports, 2)}
        self.start()

    def at(self, one, other) -> str:
        """The address at which one station finds the other."""
        return at(self.sockets[one, other].getsockname()[1])

    def say(self, one, other, data: bytes):
        """Sends bytes from the address at which one station is found to the other."""
        self.sockets[other, one].sendto(data, (LOOPBACK, self.ports[other]))

    def run(self):
        names = {it: pair for pair, it in self.sockets.items()}
        while not self.ends:
            wait = self.due[0][0] - time.monotonic() if self.due else 0.02
            for it in select.select(list(names), [], [], min(0.02, max(0, wait)))[0]:
                for data in drained(it):
                    self.take(*names[it], data)
            while self.due and self.due[0][0] <= time.monotonic():
                with self.lock:
                    _, _, one, other, data = heapq.heappop(self.due)
                self.say(one, other, self.changes(data))

    def take(self, one, other, data):
        self.count += 1
        if not self.passes(one, other, data):
            return
        self.passed.append((one, other, data))
        for _ in range(1 + (random.random() < self.repeats)):
            if random.random() >= self.loss:
                self.hold(one, other, data, self.delay + self.late * random.random())

    def hold(self, one, other, data, seconds):
        with self.lock:
            heapq.heappush(self.due, (time.monotonic() + seconds, next(self.numbers), one, other, data))

    def repeat(self, seconds=2.0):
        """All that passed so far comes again, twice and in another order."""
        for it in 2 * self.passed:
            self.hold(*it, seconds * random.random())

    def end(self):
        self.ends = True
        self.join()
        for it in self.sockets.values():
            it.close()


class Streams(threading.Thread):
    """A network of streams before a station's page, which is found at `place`: who connects there is connected with it. `changes`
    answers the pieces in which bytes go on to the station, or none where the stream is cut there."""

    def __init__(self, to: str, changes=lambda data: [data]):
        super().__init__(daemon=True)
        self.to, self.changes, self.passed, self.ends = split(to), changes, b"", False
        self.listener = socket.socket(socket.AF_INET, STREAMS)
        self.listener.bind((LOOPBACK, free_port()))
        self.listener.listen(64)
        self.place = at(self.listener.getsockname()[1])
        self.start()

    def run(self):
        while not self.ends:
            if select.select([self.listener], [], [], 0.02)[0]:
                threading.Thread(target=self.join_both, args=(self.listener.accept()[0],), daemon=True).start()

    def join_both(self, here):
        """Hands bytes on both ways, until the station ends the stream. Who asks may end their half before."""
        with here, socket.create_connection(self.to) as there:
            there.setsockopt(socket.IPPROTO_TCP, socket.TCP_NODELAY, 1)
            open_ends = [here, there]
            while not self.ends and there in open_ends:
                for it in select.select(open_ends, [], [], 0.02)[0]:
                    try:
                        data = it.recv(1 << 16)
                        if it is there and data:
                            here.sendall(data)
                        elif it is there or not self.pass_on(data, there):
                            open_ends.remove(it)
                    except OSError:
                        return

    def pass_on(self, data, there) -> bool:
        """Hands bytes on to the station, and answers whether more may come; where no piece is left of them, none does."""
        self.passed += data
        pieces = self.changes(data) if data else []
        for piece in pieces:
            there.sendall(piece)
        if not pieces:
            there.shutdown(socket.SHUT_WR)
        return bool(pieces)

    def end(self):
        self.ends = True
        self.join()
        self.listener.close()
