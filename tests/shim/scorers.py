"""Lives of a desk that serves a page, under shim.c, in which a call for it fails: its scorer's browser, its terminal and the
other desk are played here. The browser asks again for what it isn't answered, and sends a post again as it was."""
import errno, os, re, select, time
from lives import BOOK, FINGERPRINTS, LONGEST, SHEET, Process, told
from pages import Viewer, answer_at, is_at_the_beginning
from lib.ports import free_address
from plans import HOWS, Plan, plans
from record import Wrong, bytes_at
from tickets import secret_in, signed, ticket_tag
from trials import Ground, begin, card_agrees, expect, look_at_desk

LINK = re.compile(r"page: http://(\S+)/#([0-9a-f]{32})\n")
NO_SQUARE = "page: no square can be made\n"
VOTES = {(place, 0): line for place, line in enumerate(BOOK[:2])}
TOLD = [("0", "next"), *((place, what) for place in "01" for what in ("pending", "agreed"))]
# Of what a browser's life calls, all of it.
ALL = {(name, "page"): 16 for name in ("epoll_wait", "accept4", "recv", "send", "close")}


class Served(Process):
    """A desk whose standard error is read until it has told its page's link."""

    told, squares = "", 0

    def link(self):
        """Its page's place and the ticket of the next square, which is asked for where none could be made; nothing where it ends
        before."""
        asked = 0
        while len(LINK.findall(self.told)) == self.squares:
            if self.told.count(NO_SQUARE) > asked:
                asked += 1
                self.say("page")
            more = os.read(self.ran.stderr.fileno(), 4096) if select.select([self.ran.stderr], [], [], LONGEST)[0] else b""
            if not more:
                return None
            self.told += more.decode()
        self.squares += 1
        return list(LINK.finditer(self.told))[self.squares - 1]

    def until(self, what, holds):
        """Does this again and again until it holds. The desk must go on meanwhile."""
        end = time.time() + LONGEST
        while not holds():
            self.wait([], 0.005)
            if not self.is_open or time.time() > end:
                raise Wrong(f"{what} never came, but {self.lines[-6:]}")

    def has(self, place, what):
        return (str(place), what) in map(told, self.lines)

    def end(self, is_stopped=False):
        status, out, rest = super().end(is_stopped)
        return status, out, (self.told + rest).removeprefix(FINGERPRINTS)


class Browser:
    """A scorer's. A careless one makes a new post of a line whose post wasn't answered."""

    def __init__(self, link, is_careless):
        self.place, self.is_careless = link[1], is_careless
        self.viewer = Viewer(self.place)

    def comes_in(self, link):
        """Takes the secret for a link's ticket. Where the answer is lost the ticket is used, and another square is needed."""
        ticket = bytes.fromhex(link[2])
        status, text = answer_at(self.place, f"POST /secret HTTP/1.1\r\nHost: {self.place}\r\nContent-Length: 0\r\nX-Tag: {ticket_tag(ticket)}\r\n\r\n".encode())
        self.secret = secret_in(ticket, text.decode()) if status == 200 else None
        return self.secret is not None

    def ask(self, request):
        """What is answered in the end: the status and the text, and how often it asked."""
        end, count = time.time() + LONGEST, 0
        while time.time() < end:
            status, text = answer_at(self.place, request)
            count += 1
            if status:
                return status, text, count
            time.sleep(0.01)
        raise Wrong(f"nobody answers {request!r}")

    def get(self, path):
        status, text, _ = self.ask(f"GET {path} HTTP/1.1\r\nHost: {self.place}\r\n\r\n".encode())
        if status != 200:
            raise Wrong(f"{path} is answered {status}")
        return text

    def watches(self, text):
        """Takes what comes of the events, and tells whether this has."""
        self.viewer.work()
        return text in self.viewer.came

    def post(self, place, line):
        """A post of a line, by the next number."""
        nonce = self.get("/nonce").decode().strip()
        tag, hidden = signed(self.secret, nonce, f"{place}.0", line.encode())
        fields = f"Host: {self.place}\r\nContent-Length: {len(line)}\r\nX-At: {place}.0\r\nX-Nonce: {nonce}\r\nX-Tag: {tag}\r\n"
        return f"POST /line HTTP/1.1\r\n{fields}\r\n".encode() + hidden

    def type(self, place, line):
        """Types a line. The answer is that it is typed, or where one was lost that its number is used up."""
        request = self.post(place, line)
        while self.is_careless and answer_at(self.place, request)[0] is None:
            request = self.post(place, line)
        if self.is_careless:
            return
        status, _, count = self.ask(request)
        if status not in ((200,) if count == 1 else (200, 410)):
            raise Wrong(f"the post is answered {status}, the {count}. time")


def keep(it, link, other, is_careless):
    """A desk's life beside its page: a line is typed there and agreed, and another one at the terminal."""
    browser, heard = Browser(link, is_careless), set()
    if b"<title>" not in browser.get("/"):
        raise Wrong("the page isn't the page")
    while not browser.comes_in(link):
        it.say("page")
        link = it.link()
    it.until("the state", lambda: browser.watches(b'"place":0'))
    browser.type(0, BOOK[0])
    it.until("its vote", lambda: it.has(0, "pending"))
    it.until("the entry of the page", lambda: heard.update(other.answer()) or it.has(0, "agreed"))
    it.until("the next state", lambda: browser.watches(b'"place":1'))
    it.say(BOOK[1])
    it.until("the entry of the terminal", lambda: heard.update(other.answer()) or it.has(1, "agreed"))
    browser.viewer.leave()
    it.say("quit")
    return heard


def life(folder, other, fail="", is_careless=False):
    """Until it ends. It answers its status and texts, the votes that came from it, and its page's place."""
    at, place = free_address(), free_address()
    words = ["desk", "--sheet", SHEET, "--desk", "a", "--file", f"{folder}/a.votes", "--at", at, "--other", other.address()]
    with Served([*words, "--serve", place], folder, fail, "") as it:
        link = it.link()
        heard = keep(it, link, other, is_careless) if link else set()
        return it.end(), heard.union(other.answer()), place


def goes_well(ground, judge, end, place):
    """A desk that went on was told one line in its page, and told its terminal what any desk does."""
    status, out, error = end
    if LINK.sub("", error).replace(NO_SQUARE, "") != f"page: {BOOK[0]}\n" or f"page: http://{place}/#" not in error or status:
        raise Wrong(f"it ended with {end}")
    if [told(line) for line in out.splitlines() if line[:1].isdigit()] != TOLD:
        raise Wrong(f"the terminal was told {out!r}")
    judge.whole("a", VOTES)
    if card_agrees(ground.file("a.votes"), "a") != VOTES:
        raise Wrong("card has another book")


def fail_scorer(plan, is_careless=False):
    """A life in which a call for the page fails. Where no page can be had the desk ends as it begins, without a file; otherwise
    it goes on. It answers whether the call was met."""
    with Ground() as ground:
        judge, other = begin(ground, None)
        end, heard, place = life(ground.folder, other, plan.text(), is_careless)
        calls = look_at_desk(ground, judge, heard)
        met = plan.met(calls) is not None
        if met and (is_at_the_beginning(plan) or plan.label == "random" and plan.count < 2):
            expect(end, [(3, "", f"cannot listen at {place}\n")])
            if heard or bytes_at(ground.file("a.votes")) is not None:
                raise Wrong("it has begun a file")
        else:
            goes_well(ground, judge, end, place)
        return met


def recorded_scorer():
    """A life that goes well. It answers its calls."""
    with Ground() as ground:
        judge, other = begin(ground, None)
        end, heard, place = life(ground.folder, other)
        calls = look_at_desk(ground, judge, heard)
        goes_well(ground, judge, end, place)
        return calls


def page_plans(calls):
    """Each call for the page of these fails, and each third one of a browser's."""
    of_page = [it for it in calls if it.label in ("page", "random") or (it.name, it.label) == ("poll", "socket")]
    thirds = [Plan(name, "page", 0, how) for name in ("accept4", "recv", "send", "ioctl") for how in HOWS[name]]
    return plans(of_page, ALL) + thirds


def unanswered(calls):
    """The answer to the post can't be sent."""
    voted = next(at for at, it in enumerate(calls) if it.vote())
    count = [(it.name, it.label) for it in calls[:voted]].count(("send", "page"))
    return Plan("send", "page", count, errno.ECONNRESET)
