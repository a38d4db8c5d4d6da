"""A station's page, as browsers and others ask for it: requests by their bytes, answers, and the events of who watches."""
import json, re, select, socket, time
from .ports import STREAMS, free_port
from .waiting import SOON, Wrong, expect

BEAT = b"event: beat\ndata: -\n\n"
FIELDS = ("cache-control: no-store", "x-content-type-options: nosniff", "referrer-policy: no-referrer", "connection: close")


class Served:
    """What asks for a station's page, which is at `place`."""

    place: str

    def serve_at(self, host="127.0.0.1"):
        """Takes a place for the page."""
        self.port = free_port()
        self.place = f"[{host}]:{self.port}" if ":" in host else f"{host}:{self.port}"
        self.where = ("::1" if ":" in host else "127.0.0.1", self.port)

    def visit(self, room=None, source=None):
        """A stream to the page; `room` is how much of what comes it holds, `source` the address that it comes from."""
        it = socket.socket(socket.AF_INET6 if ":" in self.where[0] else socket.AF_INET, STREAMS)
        if room:
            it.setsockopt(socket.SOL_SOCKET, socket.SO_RCVBUF, room)
        if source:
            it.bind((source, 0))
        it.settimeout(SOON)
        it.setsockopt(socket.IPPROTO_TCP, socket.TCP_NODELAY, 1)
        it.connect(self.where)
        return it

    def sent(self, *pieces, between=lambda: time.sleep(0.003), is_cut=False) -> bytes:
        """All that is answered to these bytes, which come in pieces, until the station closes. Cut, nothing follows them."""
        with self.visit() as it:
            try:
                for piece in pieces:
                    it.sendall(piece)
                    if len(pieces) > 1:
                        between()
                if is_cut:
                    it.shutdown(socket.SHUT_WR)
            except OSError:
                pass
            return rest_of(it)

    def get(self, target, host=None, method="GET", version="1.1", more="") -> bytes:
        return self.sent(f"{method} {target} HTTP/{version}\r\nHost: {host or self.place}\r\n{more}\r\n".encode())

    def is_there(self) -> bool:
        """Whether who asks is answered, be it that another host is asked for."""
        try:
            return Answer(self.get("/")).status in (200, 403)
        except OSError:
            return False

    def events(self, room=None, target="/events"):
        return Events(self, room, target)


def rest_of(it, seconds=SOON) -> bytes:
    """What comes until the other side closes."""
    it.settimeout(seconds)
    found = b""
    try:
        while more := it.recv(1 << 16):
            found += more
    except ConnectionResetError:
        pass
    return found


class Answer:
    """A whole answer: its status, its fields and its text."""

    def __init__(self, found):
        head, end, self.body = found.partition(b"\r\n\r\n")
        first, *self.fields = head.decode().split("\r\n")
        parts = re.fullmatch(r"HTTP/1\.[01] (\d{3}) [ -~]*", first)
        if not end or not parts:
            raise Wrong(f"{found[:200]!r} is no answer")
        self.status = int(parts.group(1))

    def field(self, name):
        found = [it.split(": ", 1)[1] for it in self.fields if it.lower().startswith(f"{name}: ")]
        expect(f"how often {name} is there", len(found), 1)
        return found[0]

    def is_whole(self):
        """Has just the fields that each has, and just as many bytes as it says."""
        for it in FIELDS:
            if self.fields.count(it) != 1:
                raise Wrong(f"{it} isn't among {self.fields}")
        expect("its fields", sorted(it.split(":")[0] for it in self.fields), sorted([it.split(":")[0] for it in FIELDS] + [
            "content-type", "content-length", "content-security-policy", "retry-after" if self.status == 503 else "allow"]))
        expect("its length", int(self.field("content-length")), len(self.body))
        return self


class Events:
    """A viewer that is told each new state: the whole events of its stream, as they come."""

    def __init__(self, page, room=None, target="/events"):
        self.raw, self.told, self.beats, self.numbers = b"", [], 0, []
        self.it = page.visit(room)
        self.it.sendall(f"GET {target} HTTP/1.1\r\nHost: {page.place}\r\nAccept: text/event-stream\r\n\r\n".encode())
        self.head = None

    def take(self, seconds=0.0):
        """Takes what is there, or comes in this time."""
        if not select.select([self.it], [], [], seconds)[0]:
            return False
        more = self.it.recv(1 << 16)
        self.raw += more
        if self.head is None and b"\r\n\r\n" in self.raw:
            head, self.raw = self.raw.split(b"\r\n\r\n", 1)
            self.head = Answer(head + b"\r\n\r\n")
        while self.head is not None and (size := re.match(rb"([0-9a-f]+)\r\n", self.raw)):
            end = size.end() + int(size.group(1), 16)
            if len(self.raw) < end + 2:
                break
            expect("the end of a chunk", self.raw[end : end + 2], b"\r\n")
            self.event(self.raw[size.end() : end])
            self.raw = self.raw[end + 2 :]
        return bool(more)

    def event(self, text):
        if text == BEAT:
            self.beats += 1
            return
        found = re.fullmatch(rb"id: (\d+)\ndata: ([^\n]+\n)\n", text)
        if not found:
            raise Wrong(f"{text[:100]!r} is no event")
        self.numbers.append(int(found.group(1)))
        self.told.append(found.group(2).decode())

    def last(self):
        return json.loads(self.told[-1])["entries"] if self.told else -1

    def until(self, what, holds, seconds=SOON):
        """Takes what comes until this holds."""
        end = time.monotonic() + seconds
        while not holds():
            self.take(0.01)
            if time.monotonic() > end:
                raise Wrong(f"a viewer was never told {what}, but {self.told[-1:]}, {self.beats} beats")

    def wait_for(self, count, seconds=SOON):
        self.until(f"{count} entries", lambda: self.last() == count, seconds)

    def wait_closed(self, seconds=SOON):
        """Waits until the station has closed it."""
        end = time.monotonic() + seconds
        while time.monotonic() < end:
            try:
                if select.select([self.it], [], [], 0.1)[0] and not self.it.recv(1 << 16):
                    return True
            except ConnectionError:
                return True
        return False

    def close(self):
        self.it.close()
