"""Lives of the program under shim.c: a desk whose scorer and other desk are played here, a board, and words that end by
themselves. Each answers how the process ended and leaves a record of its calls."""
import os, select, signal, subprocess, time
from lib import ports
import messages
from record import SEAL, SHEET, Wrong, bytes_at

BOOK = ["innings home", "in 1", "in 2", "ball 7 bat 1"]
DIFFERS = {2: "in 3"}
BOARD = "Alder 1 for 0\nOvers 0.1\nStriker Baker 0 (0)\nOther Amin 1 (1)\nTarget -\nResult -\n"
FINGERPRINTS = "".join(f"{it}\n" for it in SEAL.fingerprints(False))
SAME_DISK = "the copy is on the same disk as the file\n"
LONGEST = 60


def vote(desk, place, round_, line):
    """A vote's datagram."""
    return SEAL.sealed(messages.vote(desk, place, round_, line))


def position(data):
    """The kind of a datagram, and its place and round."""
    return data[3], int.from_bytes(data[13:17], "big"), int.from_bytes(data[17:19], "big")


class Tools:
    """The program and the compiled shim."""

    program, shim = None, None

    def environment(self, log, fail, wrong):
        return {"LD_PRELOAD": self.shim, "SHIM_LOG": log, "SHIM_FAIL": fail, "SHIM_WRONG": wrong, "PATH": os.environ["PATH"]}

    def run(self, words, folder, fail="", wrong="", given=b"", log="record", out=subprocess.PIPE):
        """Runs words that end by themselves, and answers their status and texts."""
        where = self.environment(f"{folder}/../{log}", fail, wrong) if log else None
        pipes = {"stdout": out, "stderr": subprocess.PIPE}
        ran = subprocess.run([self.program, *words], input=given, env=where, timeout=LONGEST, **pipes)
        return ran.returncode, ran.stdout.decode() if ran.stdout is not None else None, ran.stderr.decode()


TOOLS = Tools()


class Process:
    """A running program with pipes. It is killed where the block that it serves ends before it."""

    def __init__(self, words, folder, fail, wrong):
        where, pipe = TOOLS.environment(f"{folder}/../record", fail, wrong), subprocess.PIPE
        self.ran = subprocess.Popen([TOOLS.program, *words], stdin=pipe, stdout=pipe, stderr=pipe, env=where)
        self.out, self.lines, self.is_open = "", [], True
        os.set_blocking(self.ran.stdout.fileno(), False)

    def __enter__(self):
        return self

    def __exit__(self, *_):
        if self.ran.poll() is None:
            self.ran.kill()
            self.ran.communicate()

    def say(self, line):
        try:
            os.write(self.ran.stdin.fileno(), f"{line}\n".encode())
        except BrokenPipeError:
            pass

    def wait(self, sockets, seconds):
        """Waits for lines or datagrams. It answers the lines, and the sockets that have datagrams."""
        ready, _, _ = select.select([*sockets, *([self.ran.stdout] if self.is_open else [])], [], [], seconds)
        came = []
        if self.ran.stdout in ready:
            data = os.read(self.ran.stdout.fileno(), 65536)
            self.is_open = bool(data)
            self.out += data.decode()
            came = self.out.split("\n")[len(self.lines) : -1]
            self.lines += came
        return came, [it for it in ready if it is not self.ran.stdout]

    def plays(self, shows, step):
        """Plays on, a step at a time, until this holds or it has ended; whether it holds."""
        end = time.time() + LONGEST
        while self.is_open and time.time() < end and not shows():
            step()
        return shows()

    def end(self, is_stopped=False):
        """Its status and texts; `None` for the status of one that goes on, and is stopped here."""
        if is_stopped:
            self.ran.send_signal(signal.SIGTERM)
        self.ran.stdin.close()
        self.ran.stdin = None
        try:
            _, error = self.ran.communicate(timeout=LONGEST)
        except subprocess.TimeoutExpired:
            self.ran.kill()
            self.ran.communicate()
            raise Wrong(f"it doesn't end, after {self.lines[-8:]}") from None
        told = error.decode().removeprefix(SAME_DISK).removeprefix(FINGERPRINTS)
        return None if self.ran.returncode == -signal.SIGTERM else self.ran.returncode, self.out, told


class OtherDesk:
    """Desk B, which votes as desk A does, but first for another entry at some places."""

    def __init__(self):
        self.socket, self.cast, self.sender = ports.peer(), {}, None  # the desk that it heard last

    def address(self):
        return ports.address_of(self.socket)

    def hear(self, place, round_):
        """Votes where desk A has."""
        line = DIFFERS[place] if place in DIFFERS and round_ == 0 else BOOK[place]
        self.cast[place, round_] = vote(2, place, round_, line)

    def answer(self):
        """Takes what came, and answers it. It answers the places and rounds of the votes that came."""
        came = []
        while True:
            try:
                data, sender = self.socket.recvfrom(100)
            except OSError:
                return came
            self.sender = sender
            kind, place, round_ = position(data)
            if kind == 1:
                came.append((place, round_))
                self.hear(place, round_)
            if (place, round_) in self.cast:
                self.socket.sendto(self.cast[place, round_], sender)


class Eager(OtherDesk):
    """Desk B, which votes at each place before desk A does, and says so twice a second."""

    def __init__(self):
        super().__init__()
        self.place, self.said = 0, 0

    def hear(self, place, round_):
        super().hear(place, round_)
        self.place = max(self.place, place + 1)

    def insist(self, _):
        if self.sender and self.place < len(BOOK) and time.time() - self.said > 0.5:
            self.said = time.time()
            self.socket.sendto(vote(2, self.place, 0, BOOK[self.place]), self.sender)


def next_line(place, what, until):
    """What the scorer types at what the desk says."""
    if what == "differs":
        return f"again {BOOK[place]}"
    place += what == "agreed"
    return BOOK[place] if place < until else "quit"


def desk(folder, other, fail="", wrong="", until=len(BOOK), disturb=None, copy=None):
    """A desk's life from its start until so many entries are agreed and its scorer quits, or until it ends before. It
    answers its status and texts, the votes that came from it, and its address."""
    at = ports.free_address()
    words = ["desk", "--sheet", SHEET, "--desk", "a", "--file", f"{folder}/a.votes", "--at", at, "--other", other.address()]
    words += ["--copy", copy] if copy else []
    with Process(words, folder, fail, wrong) as it:
        heard = score(it, other, until, disturb)
        ended = it.end()
    return ended, heard.union(other.answer()), at


def score(it, other, until, disturb):
    """Plays a desk's scorer and the other desk until the desk ends. It answers the votes that came."""
    end, heard = time.time() + LONGEST, set()
    while it.is_open and time.time() < end:
        lines, ready = it.wait([other.socket], 0.002 if disturb else 0.5)
        for place, what in map(told, lines):
            if place.isdigit() and what in ("next", "agreed", "differs"):
                it.say(next_line(int(place), what, until))
        if ready:
            heard.update(other.answer())
        if disturb:
            disturb(it.ran)
    return heard


def told(line):
    """What a scorer is told: the place, and what of it, without the entry."""
    place, _, what = line.partition(" ")
    return place, what.partition(":")[0]


def board(folder, fail="", wrong="", disturb=None):
    """A board's life until its text and its state have the book, with both desks played here. It answers its status and
    texts, and its address."""
    at, desks = ports.free_address(), [ports.peer(), ports.peer()]
    text, json = f"{folder}/board.txt", f"{folder}/board.json"
    where = [*map(ports.address_of, desks)]
    words = ["board", "--sheet", SHEET, "--at", at, "--desk-a", where[0], "--desk-b", where[1]]
    words += ["--text", text, "--json", json]
    with Process(words, folder, fail, wrong) as it:

        def step():
            answer_board(desks, it.wait(desks, 0.005)[1])
            if disturb:
                disturb(it.ran)
            shown = bytes_at(text)
            if shown is not None and shown.count(b"\n") != 6:
                raise Wrong(f"the board's file has {shown!r}, which isn't six lines")

        it.plays(lambda: it.out.endswith(BOARD) and bytes_at(text) == BOARD.encode() and has_book(json), step)
        if fail:
            # Where it fails as the last file has its name already, it ends a moment later.
            it.wait([], 0.05)
        return it.end(is_stopped=it.is_open), at


def has_book(json):
    """Whether a board's state has the book. It is whole, or isn't there."""
    state = bytes_at(json)
    if state is not None and not (state.startswith(b"{") and state.endswith(b"}\n")):
        raise Wrong(f"the board's state is {state!r}")
    return state is not None and f'"entries":{len(BOOK)},'.encode() in state


def answer_board(desks, ready):
    """Answers what a board asks these desks for."""
    for which in ready:
        data, sender = which.recvfrom(100)
        _, place, round_ = position(data)
        if place < len(BOOK) and round_ == 0:
            which.sendto(vote(1 + desks.index(which), place, 0, BOOK[place]), sender)
