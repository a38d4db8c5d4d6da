"""Addresses on loopback that nobody else takes: each process of tests has a range of ports, below those that a system gives out by
itself, which it holds by a name that no two processes can have at once."""
import itertools, os, socket
from .places import LOOPBACK
from .waiting import Wrong

FIRST, SIZE, COUNT = 10240, 256, 88
DATAGRAMS, STREAMS = socket.SOCK_DGRAM, socket.SOCK_STREAM


class Range:
    """The ports of this process."""

    def __init__(self):
        self.owner, self.lock = os.getpid(), socket.socket(socket.AF_UNIX, DATAGRAMS)
        for number in itertools.islice(itertools.cycle(range(COUNT)), self.owner % COUNT, self.owner % COUNT + COUNT):
            try:
                self.lock.bind(f"\0ports of yermudosh's tests {number}")
            except OSError:
                continue
            # not from the same port on as the process that had this range before: a station of that may still send to one
            shift = self.owner // COUNT * 37 % SIZE
            self.ports = itertools.cycle([FIRST + SIZE * number + (shift + it) % SIZE for it in range(SIZE)])
            return
        raise Wrong("no range of ports is free")

    def next(self) -> int:
        """The port that was given out the longest ago, of those that nobody has."""
        for port in itertools.islice(self.ports, SIZE):
            if is_free(port):
                return port
        raise Wrong("no port of the range is free")


_mine: list[Range] = []


def is_free(port: int) -> bool:
    for kind in DATAGRAMS, STREAMS:
        with socket.socket(socket.AF_INET, kind) as it:
            try:
                it.bind((LOOPBACK, port))
            except OSError:
                return False
    return True


def free_port() -> int:
    """A port that stays free, for datagrams and streams, until who asked for it has it."""
    if not _mine or _mine[0].owner != os.getpid():
        _mine[:] = [Range()]
    return _mine[0].next()


def free_ports(count: int) -> list[int]:
    return [free_port() for _ in range(count)]


def at(port: int) -> str:
    return f"{LOOPBACK}:{port}"


def free_address() -> str:
    return at(free_port())


def free_addresses(count: int) -> list[str]:
    return [free_address() for _ in range(count)]


def split(address: str) -> tuple[str, int]:
    """The host and the port of an address."""
    host, _, port = address.rpartition(":")
    return host.strip("[]"), int(port)


def peer(port: int = 0, waits: float | None = None, room: int = 0) -> socket.socket:
    """A socket for datagrams in a station's place, at this port or at one that it holds from now on. It waits so long for what comes;
    for `None` it doesn't."""
    it = socket.socket(socket.AF_INET, DATAGRAMS)
    if room:
        it.setsockopt(socket.SOL_SOCKET, socket.SO_RCVBUF, room)
    it.bind((LOOPBACK, port or free_port()))
    it.settimeout(waits or 0.0)
    return it


def address_of(it: socket.socket) -> str:
    return "%s:%d" % it.getsockname()[:2]


def drained(it: socket.socket) -> list[bytes]:
    """All datagrams that are there."""
    found = []
    while True:
        try:
            found.append(it.recv(2048))
        except BlockingIOError:
            return found
