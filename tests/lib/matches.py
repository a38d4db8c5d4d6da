"""Matches of real processes: two desks and boards with their files, beside each other or with a network between, and scorers who keep a
book at them."""
import json, os, sys, tempfile, time
from . import TOP, stations
from .places import SHEET, content, ground, printed, ran, value_in, written
from .ports import at, free_ports
from .relays import Relay
from .stations import Board, Desk
from .waiting import Wrong, expect, wait_for, wants


class Match:
    """Two desks and boards of a match in a folder: their ports, their files, and the stations that run. A network is what `relay` makes
    of the ports. Where the key is a folder, each station has its file there."""

    def __init__(self, folder, sheet=SHEET, boards="c", relay=None, key=None):
        self.folder, self.sheet, self.key, self.board_names, self.stations, self.ended = folder, sheet, key, boards, {}, []
        self.ports = dict(zip("ab" + boards, free_ports(2 + len(boards))))
        self.relay = relay(self.ports) if relay else None

    def at(self, name) -> str:
        return at(self.ports[name])

    def there(self, one, other) -> str:
        """The address at which one station finds the other."""
        return self.relay.at(one, other) if self.relay else self.at(other)

    def file(self, letter) -> str:
        return f"{self.folder}/{letter}.votes"

    def text(self, name="c") -> str:
        return f"{self.folder}/{name}.txt"

    def json(self, name="c") -> str:
        return f"{self.folder}/{name}.json"

    def key_of(self, name) -> str | None:
        if self.key and os.path.isdir(self.key):
            return f"{self.key}/{name if name in 'ab' else f'board{self.board_names.index(name) + 1}'}.key"
        return self.key

    def desk_options(self, letter) -> dict:
        other = "ab".replace(letter, "")
        boards = [self.there(letter, it) for it in self.board_names]
        own = {"letter": letter, "file": self.file(letter), "at": self.at(letter), "other": self.there(letter, other)}
        return {**own, "sheet": self.sheet, "boards": boards, "key": self.key_of(letter)}

    def begin(self, *names, **more):
        """Has these begin, desks by their letters and boards by their names, and answers the last."""
        for name in names:
            if name in "ab":
                self.stations[name] = self.desk(**{**self.desk_options(name), **more})
            else:
                files = {"text": self.text(name), "json": self.json(name), **more}
                self.stations[name] = Board(self.at(name), self.there(name, "a"), self.there(name, "b"), sheet=self.sheet, key=self.key_of(name), **files)
        return self.stations[names[-1]]

    def desk(self, **options) -> Desk:
        return Desk(**options)

    def __getitem__(self, name) -> stations.Station:
        return self.stations[name]

    def pair(self) -> list[stations.Station]:
        return [self.stations[it] for it in "ab" if it in self.stations]

    def end(self, *names):
        """Kills these; what they told is kept."""
        for name in names:
            if name in self.stations:
                self.ended.append(self.stations.pop(name))
                self.ended[-1].kill()

    def settle(self):
        """Waits until all have taken what came."""
        stations.settle(*(it for it in self.stations.values() if not it.is_over()))

    def write(self, place, *lines):
        """Both scorers write these lines, one after the other, from this place on."""
        for line in lines:
            for desk in self.pair():
                desk.wait_for_part(f"{place} next", f"{place - 1} agreed")
                desk.say(line)
            for desk in self.pair():
                desk.wait_for_part(f"{place} agreed: {line}")
            place += 1

    def shown(self, name="c") -> str:
        return content(self.text(name)) or ""

    def entries(self, name="c") -> int:
        value = value_in(self.json(name))
        return 0 if value is None else value["entries"]

    def wait_for_board(self, text, name="c"):
        wait_for(f"{text!r} on a board", lambda: text in self.shown(name), but=lambda: self.shown(name))

    def stop(self):
        if self.relay:
            self.relay.ends = True
        stations.kill(*self.stations.values())

    def __enter__(self):
        return self

    def __exit__(self, *_):
        self.stop()


class Scorer(Desk):
    """A desk whose scorer types the lines of a book; at some places a wrong one first."""

    def __init__(self, book, wrong=None, **options):
        self.book, self.wrong, self.done = book, wrong or {}, 0
        super().__init__(**options)

    def pen(self, place):
        if place < len(self.book):
            self.say(self.wrong.get(place, self.book[place]))

    def work(self):
        """Goes on with what the desk said."""
        for line in self.heard():
            place, _, what = line.partition(" ")
            if not place.isdigit():
                if line.startswith(("refused", "fault", "cannot")):
                    raise Wrong(f"desk {self.letter}: {line}, after {self.rows[-12:]}")
            elif what == "next":
                self.pen(int(place))
            elif what.startswith("differs: you "):
                self.say(f"again {self.book[int(place)]}")
            elif what.startswith("agreed: "):
                self.done = int(place) + 1
                self.pen(self.done)
            elif what.startswith("pending: "):
                self.done = int(place)

    def is_done(self):
        return self.done == len(self.book)


class Played(Match):
    """A match of two desks and a board in a folder, whose scorers type the lines of the book, or these in their places."""

    def __init__(self, folder, book, wrong=None, typed=None, sheet=SHEET, **network):
        relay = (lambda ports: Relay(ports, **network)) if network else None
        super().__init__(folder, sheet, relay=relay)
        self.book, self.typed, self.wrong = book, typed or book, {"a": {}, "b": wrong or {}}
        self.begin("a", "b", "c")

    def desk(self, letter, **options):
        return Scorer(self.typed, self.wrong[letter], letter=letter, **options)

    a = property(lambda self: self["a"])
    b = property(lambda self: self["b"])
    board = property(lambda self: self["c"])

    def play(self, limit, disturb=lambda ground: None):
        """Lets both scorers write until the book is agreed at both desks."""
        end = time.monotonic() + limit
        while not (self.a.is_done() and self.b.is_done()):
            if time.monotonic() > end:
                raise Wrong(f"{self.a.done} and {self.b.done} of {len(self.book)} agreed: {self.a.rows[-9:]}, {self.b.rows[-9:]}")
            self.a.work()
            self.b.work()
            disturb(self)
            self.look_at_files()
            time.sleep(0.002)

    def look_at_files(self):
        """At any moment the board's lines are six, and its state is a whole value."""
        text = content(self.text())
        if text is not None and text.count("\n") != 6:
            raise Wrong(f"the board's file has {text!r}, which isn't six lines")
        self.state()

    def state(self):
        """What the board's state has: how many entries, and the first lines of the board."""
        try:
            value = value_in(self.json())
        except json.JSONDecodeError:
            raise Wrong(f"the board's state is {content(self.json())!r}") from None
        if value is None:
            return None
        it = value["innings"][-1] if value["innings"] else None
        return value["entries"], f"{it['team']} {it['runs']} for {it['wickets']}\nOvers {it['overs']}\n" if it else "No play\nOvers -\n"

    def look(self):
        """What is shown at the end must be the book."""
        book = written(f"{self.folder}/book.txt", self.book)
        board = printed("match", "--sheet", self.sheet, "--book", book, "--dir", tempfile.mkdtemp(dir=self.folder))
        wait_for("the book on the board", lambda: content(self.text()) == board, but=lambda: content(self.text()))
        state = len(self.book), "".join(board.splitlines(True)[:2])
        wait_for("the book in the board's state", lambda: self.state() == state, but=self.state)
        for it in (self.a, self.b):
            it.quit()
        self.board.kill()
        lines = "".join(f"{place:4} {line}\n" for place, line in enumerate(self.book[:-1]))
        for letter in "ab":
            found = ran([sys.executable, f"{TOP}/examples/read_votes.py", self.file(letter)])
            expect(f"what {letter}'s file has", found[1:], (lines, ""))
        cards = [printed("card", "--sheet", self.sheet, "--from", self.file(it), "--kind", it) for it in "ab"]
        wants(cards[0] and cards[0] == cards[1], "the cards of the two files differ")
        self.look_at_both(book)
        self.stop()

    def look_at_both(self, book):
        """Both files together must print what the lines of the book do, the last entry too."""
        files = ["--from", self.file("a"), "--with", self.file("b")]
        for word in ("card", "export"):
            both = printed(word, "--sheet", self.sheet, "--kind", "both", *files)
            expect(f"{word} of both files", both, printed(word, "--sheet", self.sheet, "--kind", "book", "--from", book))


AGREED: dict[int, tuple[str, list[bytes]]] = {}


def agreed_files(folder, book):
    """Both desks' files of a book, which `match` writes once. It answers the board's lines."""
    if len(book) not in AGREED:
        lines = ground("match", "--sheet", SHEET, "--book", written(f"{folder}/book.txt", book), "--dir", folder)[1]
        AGREED[len(book)] = lines, [open(f"{folder}/{it}.votes", "rb").read() for it in "ab"]
    lines, files = AGREED[len(book)]
    for letter, data in zip("ab", files):
        with open(f"{folder}/{letter}.votes", "wb") as it:
            it.write(data)
    return lines
