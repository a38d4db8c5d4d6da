"""A board whose desks are played here, the sheets of its matches, and what its files tell."""
import json
from . import ports, stations
from .pages import Served
from .places import EXAMPLES, LOOPBACK, bytes_of, content, printed, put, read_sheet
from .waiting import SOON, Wrong, expect, wait_for
import read_votes
from sealing import Seal

LIMITS = """
[limits]
overs = [20, 12]
overs_a_bowler = 4
free_hits = true
powerplays = [[1, 2], [4, 5]]
"""
HOSTILE = [
    "<b>Amin</b>", "</script>", '"Baker"', "C&amp;arr", "D'Or\\\\", '{"a":1}', "<img src=x>", "  two  spaces ", "-->", "\\u0041",
    "javascript:0",
]
REFUSED = {"place": 1, "why": "refused", "text": "both desks' votes were refused: no later score is shown"}


def sheet_of(folder, innings, limits=LIMITS):
    return put(f"{folder}/sheet.toml", content(f"{EXAMPLES}/sheet.toml").split("\n[limits]")[0].replace("innings = 1", f"innings = {innings}") + limits)


def hostile_sheet(folder):
    """A sheet with names that look like a page's or a file's own words."""
    sheet = content(f"{EXAMPLES}/sheet.toml")
    names = iter(HOSTILE)
    for old in read_sheet(f"{EXAMPLES}/sheet.toml")["home"]["players"]:
        sheet = sheet.replace(f'"{old}"', json.dumps(next(names)))
    sheet = sheet.replace('"Alder"', '"<i>&Alder"').replace('title = "', 'title = "<u>\\"')
    file = put(f"{folder}/hostile.toml", sheet)
    told = read_sheet(file)
    expect("the names that are none", (told["home"]["players"], told["home"]["name"]), (HOSTILE, "<i>&Alder"))
    return file


def codes_of(folder, sheet, book):
    """The 24 bytes of each line of a book, as two desks keep them."""
    printed("match", "--sheet", sheet, "--book", book, "--dir", folder)
    return [slot[end + 1 : end + 25] for _, slot, end in read_votes.slots(bytes_of(f"{folder}/a.votes"))]


def lines_of(value):
    """The six lines of a board, by its state."""
    now = value["now"]
    if not value["innings"]:
        text = "No play\nOvers -\nStriker -\nOther -\n"
    else:
        it = value["innings"][-1]
        text = f"{it['team']} {it['runs']} for {it['wickets']}\nOvers {it['overs']}\n"
        for name, end in ("Striker", "striker"), ("Other", "other"):
            found = [b for b in it["batting"] if b["number"] == now[end]]
            text += f"{name} {found[0]['name']} {found[0]['runs']} ({found[0]['balls']})\n" if found else f"{name} -\n"
    dash = lambda what: "-" if what is None else what
    return text + f"Target {dash(now['target'])}\nResult {dash(now['result'])}\n"


def printed_card(sheet, book):
    """The cards that `card` prints, without what a board's state doesn't tell."""
    pages = printed("card", "--sheet", sheet, "--from", book, "--kind", "book").split("\n")
    last = max((n for n, line in enumerate(pages) if line.startswith("Overs not of six ")), default=-1)
    kept = [line for line in pages[: last + 1] if not line.startswith("Overs not of six ")]
    return "".join("BOWLING\n" if line.endswith(" bowling") else f"{line}\n" for line in kept)


class Board(Served, stations.Board):
    """A board that runs, and the sockets of its desks; with a page, where a host for it is named."""

    def __init__(self, folder, sheet, host=None):
        self.text, self.json, self.script = f"{folder}/board.txt", f"{folder}/board.json", f"{folder}/state.js"
        self.seal, self.codes, self.has = Seal(sheet), [], 0
        self.match = read_sheet(sheet)["number"]
        self.desks, self.at = [ports.peer() for _ in "ab"], (LOOPBACK, ports.free_port())
        files = {"text": self.text, "json": self.json, "script": self.script}
        if host:
            self.serve_at(host)
            files = {"text": self.text, "json": self.json, "serve": self.place}
        super().__init__("%s:%d" % self.at, *map(ports.address_of, self.desks), sheet=sheet, errors=stations.APART, **files)
        if host:
            self.begin()
            wait_for("the page", self.is_there)

    def answer(self, most):
        """Both desks answer what they are asked for, up to this place, and ask for that one themselves."""
        for number, desk in enumerate(self.desks):
            for data, sender in self.came_to(desk):
                place = int.from_bytes(self.seal.opened(data)[13:17], "big")
                said = self.vote(number + 1, place) if place < most else self.ask_for(number + 1, place)
                desk.sendto(self.seal.sealed(said), sender)
                self.has = place

    @staticmethod
    def came_to(desk):
        """The datagrams that came to a desk, with who sent them."""
        while True:
            try:
                yield desk.recvfrom(100)
            except BlockingIOError:
                return

    def asks(self, count):
        """Waits until it has asked a desk so often more, which answers nothing: it goes on."""
        came = []
        wait_for(f"{count} asks of a board", lambda: came.extend(self.came_to(self.desks[0])) or len(came) >= count, but=lambda: len(came))

    def vote(self, sender, place):
        return self.message(1, sender, place, self.codes[place])

    def ask_for(self, sender, place):
        return self.message(2, sender, place, bytes(24))

    def message(self, kind, sender, place, body):
        front = b"CB\x02" + bytes([kind]) + self.match.to_bytes(8, "big") + bytes([sender])
        return front + place.to_bytes(4, "big") + bytes(2) + body + bytes(5)

    def begin(self):
        """Waits until it has heard a desk, and has a file."""
        wait_for("the file", lambda: self.answer(0) or self.value() is not None)

    def begin_again(self):
        """Kills it, and has it begin with the same words."""
        self.kill()
        self.start()
        wait_for("the page", self.is_there)

    def value(self):
        """What stands in the file, which is one value and a newline at any moment."""
        text = content(self.json)
        if text is None:
            return None
        if not text.endswith("}\n") or "\n" in text[:-1]:
            raise Wrong(f"the file has {text!r}, which isn't one line")
        return json.loads(text)

    def entries(self):
        value = self.value()
        return -1 if value is None else value["entries"]

    def let_have(self, most=None, limit=SOON):
        """Lets the board have so many entries, and waits until its file has them."""
        most = len(self.codes) if most is None else most

        def holds():
            if self.is_over():
                raise Wrong(f"the board has ended with status {self.ran.returncode}: {self.errors}")
            return self.answer(most) or self.entries() == most

        wait_for(f"{most} entries", holds, limit, self.entries, pause=0.001)
        return self.value()

    def __exit__(self, *_):
        self.kill()
        for it in self.desks:
            it.close()
