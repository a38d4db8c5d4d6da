"""Desks and boards that run: what they tell, row by row, and what is typed at them."""
import os, select, signal, subprocess, threading, time
from . import processes
from .places import SHEET, ground, program, value_in
from .ports import free_address
from .waiting import SOON, Wrong, expect, wait_for

JOINED, APART, UNHEARD = "joined", "apart", "unheard"


def desk_words(letter="a", file=None, at=None, other=None, sheet=SHEET, boards=(), key=None, copy=None, more=()) -> list[str]:
    """The words of a desk; an address that isn't given is one at which nobody listens."""
    words = ["desk", "--sheet", sheet, "--desk", letter, "--file", file, "--at", at or free_address(), "--other", other or free_address()]
    for it in boards:
        words += ["--board", it]
    return [*words, *(["--key", key] if key else []), *(["--copy", copy] if copy else []), *more]


def board_words(at=None, a=None, b=None, sheet=SHEET, key=None, more=(), **files) -> list[str]:
    """The words of a board, with its files by the names of their options."""
    words = ["board", "--sheet", sheet, "--at", at or free_address(), "--desk-a", a or free_address(), "--desk-b", b or free_address()]
    named = [word for option, file in files.items() for word in (f"--{option}", file)]
    return [*words, *named, *(["--key", key] if key else []), *more]


class Station:
    """A running program whose rows are kept as they come: those of standard error among the others, apart, or not."""

    begun: list["Station"] = []

    def __init__(self, *words, errors=JOINED, front=(), **how):
        self.words, self.errors_go, self.front, self.how = list(words), errors, list(front), how
        self.start()

    def start(self):
        """Begins it, for the first time or again, with the same words."""
        to = {JOINED: subprocess.STDOUT, UNHEARD: subprocess.DEVNULL}.get(self.errors_go, subprocess.PIPE)
        pipes = {"stdin": subprocess.PIPE, "stdout": subprocess.PIPE, "stderr": to, **self.how}
        self.ran = subprocess.Popen([*self.front, program(), *self.words], **pipes)
        self.rows, self.errors, self.came, self.heard_until = [], [], threading.Condition(), 0
        Station.begun.append(self)
        self.readers = []
        for stream, rows in ((self.ran.stdout, self.rows), (self.ran.stderr, self.errors)):
            if stream is not None:
                self.readers.append(threading.Thread(target=self._read, args=(stream, rows), daemon=True))
                self.readers[-1].start()

    def _read(self, stream, rows):
        """Takes rows as they come. Who has `came` sees all that left the pipe as rows."""
        rest, is_open = b"", True
        while is_open:
            select.select([stream], [], [])
            with self.came:
                more = os.read(stream.fileno(), 1 << 16)
                is_open = bool(more)
                *whole, rest = (rest + more).split(b"\n")
                for row in whole if is_open or not rest else [*whole, rest]:
                    self.take(row.decode(errors="replace"), rows)
                self.came.notify_all()

    def take(self, row: str, rows: list[str]):
        rows.append(row)

    @property
    def pid(self) -> int:
        return self.ran.pid

    def name(self) -> str:
        return f"desk {self.words[self.words.index('--desk') + 1]}" if "--desk" in self.words else self.words[0] if self.words else "check"

    # What is typed

    def say(self, *lines):
        """Types these lines at once. One that has ended takes none."""
        try:
            self.ran.stdin.write(b"".join((line if isinstance(line, bytes) else line.encode()) + b"\n" for line in lines))
            self.ran.stdin.flush()
        except (BrokenPipeError, ValueError):
            pass

    # What is told

    def heard(self) -> list[str]:
        """The rows that came since the last call."""
        with self.came:
            found = self.rows[self.heard_until :]
            self.heard_until += len(found)
        return found

    def until(self, what, holds, limit: float = SOON):
        """Waits until this holds of its rows, which it looks at whenever one comes, and answers what it came to."""
        end = time.monotonic() + limit
        with self.came:
            while not (found := holds()):
                left = end - time.monotonic()
                is_over = not any(it.is_alive() for it in self.readers)
                if left <= 0 or is_over:
                    why = f"has ended with status {self.ran.poll()}" if is_over else f"didn't in {limit} s"
                    raise Wrong(f"{self.name()} never told {what}: it {why}, and told {self.rows[-20:]} {self.errors[-5:]}")
                self.came.wait(min(left, 0.2))
        return found

    def wait_for(self, row: str, since: int = 0, limit: float = SOON):
        """Waits until it has told this row, behind so many."""
        self.until(repr(row), lambda: row in self.rows[since:], limit)

    def wait_for_part(self, *parts: str, since: int = 0, limit: float = SOON):
        """Waits until it has told a row that has one of these in it."""
        self.until(" or ".join(map(repr, parts)), lambda: any(part in row for row in self.rows[since:] for part in parts), limit)

    def wait_for_error(self, row: str):
        self.until(f"the error {row!r}", lambda: row in self.errors)

    def has_told(self, *parts: str) -> bool:
        return any(part in row for row in [*self.rows] for part in parts)

    def begins(self):
        """Waits until a desk tells where it stands: then it hears others."""
        self.until("where it stands", lambda: any(row[:1].isdigit() for row in self.rows))
        return self

    def agreed(self) -> int:
        """How many entries a desk told as agreed so far."""
        places = [int(row.split(" ")[0]) for row in [*self.rows] if " agreed: " in row and row.split(" ")[0].isdigit()]
        return max(places) + 1 if places else 0

    # How it goes on and ends

    def rests(self):
        """Waits until it waits for whatever comes: all that it told so far has come."""
        processes.rest(self.pid)
        self.has_come()

    def has_come(self):
        """Waits until all that it told so far is a row here."""
        for stream in (self.ran.stdout, self.ran.stderr):
            if stream is not None and stream.readable():
                wait_for("what a station told", lambda: self._is_read(stream), pause=0.0005)

    def _is_read(self, stream) -> bool:
        with self.came:
            return not select.select([stream], [], [], 0)[0] or not any(it.is_alive() for it in self.readers)

    def is_over(self) -> bool:
        return self.ran.poll() is not None

    def send_signal(self, number: int):
        self.ran.send_signal(number)

    def ends(self, status: int | None = 0) -> str:
        """It must end by itself with this status, or with any; all that it told has come then. It answers its errors."""
        try:
            self.ran.wait(SOON)
        except subprocess.TimeoutExpired:
            raise Wrong(f"{self.name()} goes on: {self.rows[-20:]}") from None
        for it in self.readers:
            it.join(SOON)
        if status is not None and self.ran.returncode != status:
            raise Wrong(f"{self.name()} ended with status {self.ran.returncode}, and not {status}: {self.rows[-20:]} {self.errors[-5:]}")
        return "".join(f"{row}\n" for row in self.errors)

    def quit(self, status: int = 0) -> str:
        self.say("quit")
        return self.ends(status)

    def kill(self):
        """Ends it at once, where it still runs."""
        if self.ran.poll() is None:
            self.ran.send_signal(signal.SIGKILL)
        self.ran.wait()
        for it in self.readers:
            it.join(SOON)

    def __enter__(self):
        return self

    def __exit__(self, *_):
        self.kill()


def settle(*stations: Station):
    """Waits until these have taken all datagrams that came, and wait for more."""
    processes.settle(*(it.pid for it in stations))
    for it in stations:
        it.has_come()


def kill(*stations: Station | None):
    for it in stations:
        if it is not None:
            it.kill()


class Desk(Station):
    """A desk."""

    def __init__(self, letter="a", file=None, at=None, other=None, *, errors=JOINED, front=(), how=None, **options):
        self.letter, self.file = letter, file
        super().__init__(*desk_words(letter, file, at, other, **options), errors=errors, front=front, **(how or {}))


class Board(Station):
    """A board, whose files are named as their options are: `text`, `json`, `script`."""

    def __init__(self, at=None, a=None, b=None, *, errors=JOINED, how=None, **options):
        self.files = {it: options[it] for it in ("text", "json", "script") if it in options}
        super().__init__(*board_words(at, a, b, **options), errors=errors, **{"stdin": subprocess.DEVNULL, **(how or {})})

    def entries(self) -> int:
        """How many its state has; none before it is written."""
        value = value_in(self.files["json"])
        return 0 if value is None else value["entries"]


def refused(words, text: str, status: int, **how):
    """The program with these words must end so, and tell this alone."""
    found = ground(*words, **how)
    expect(f"status and errors of {words}", found[::2], (status, f"{text}\n"))
