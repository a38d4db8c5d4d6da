"""Lives of a board that serves a page, under shim.c, in which a call for it fails: its viewer is played here."""
import os, re, socket, time
from lib import ports
from lib.waiting import wait_for
from lives import BOARD, LONGEST, SHEET, Process, answer_board, has_book
from record import Wrong, bytes_at
from trials import Ground, expect, shows_board

BEGINNING = ("socket", "bind", "listen", "epoll_create1")


class Viewer:
    """A browser that watches. Where it is sent away, or finds nobody, it comes again."""

    def __init__(self, place):
        host, port = place.rsplit(":", 1)
        self.place, self.where, self.it, self.came, self.since = place, (host, int(port)), None, b"", 0.0

    def work(self):
        """Comes, asks, and takes what is told."""
        try:
            if self.it is None:
                if time.time() < self.since + 0.02:
                    return
                self.since, self.came = time.time(), b""
                self.it = socket.create_connection(self.where, timeout=LONGEST)
                self.it.sendall(f"GET /events HTTP/1.1\r\nHost: {self.place}\r\n\r\n".encode())
                self.it.setblocking(False)
            more = self.it.recv(1 << 16)
            self.came += more
            if not more:
                self.leave()
        except BlockingIOError:
            pass
        except OSError:
            self.leave()

    def leave(self):
        if self.it is not None:
            self.it.close()
        self.it = None

    def has_book(self):
        return b'"entries":4,' in self.came

    def state(self):
        """What is answered to who asks for the state now, and asks again where that fails."""

        def answered():
            status, text = answer_at(self.place, f"GET /board.json HTTP/1.1\r\nHost: {self.place}\r\n\r\n".encode())
            return text if status == 200 else None

        return wait_for("the state", answered, LONGEST)


WHOLE = re.compile(rb"HTTP/1\.1 (\d{3}) (?:.*\r\n)*content-length: (\d+)\r\n(?:.*\r\n)*?\r\n")


def in_answer(found):
    """The status and the text of an answer; no status where it isn't whole yet."""
    head = WHOLE.match(found)
    text = found[head.end() :] if head else b""
    return (int(head[1]), text) if head and len(text) == int(head[2]) else (None, b"")


def answer_at(place, request):
    """The status and the text of what is answered to these bytes; no status where it doesn't come whole."""
    host, port = place.rsplit(":", 1)
    found = b""
    try:
        with socket.create_connection((host, int(port)), timeout=2) as it:
            it.sendall(request)
            while in_answer(found)[0] is None and (more := it.recv(1 << 16)):
                found += more
    except OSError:
        pass
    return in_answer(found)


def life(folder, fail=""):
    """A board's life until its files have the book and a viewer was told it. It answers its status and texts, and the address of
    its page."""
    at, place, desks = ports.free_address(), ports.free_address(), [ports.peer(), ports.peer()]
    text, json = f"{folder}/board.txt", f"{folder}/board.json"
    where, viewer = [*map(ports.address_of, desks)], Viewer(place)
    words = ["board", "--sheet", SHEET, "--at", at, "--desk-a", where[0], "--desk-b", where[1], "--text", text, "--json", json]
    with Process([*words, "--serve", place], folder, fail, "") as it:

        def step():
            answer_board(desks, it.wait(desks, 0.005)[1])
            viewer.work()

        shows = lambda: it.out.endswith(BOARD) and bytes_at(text) == BOARD.encode() and has_book(json) and viewer.has_book()
        if not it.plays(shows, step) and it.is_open:
            raise Wrong(f"a viewer was told {viewer.came[-200:]!r}")
        if it.is_open and viewer.state() != bytes_at(json):
            raise Wrong("the state that is answered isn't that of the file")
        viewer.leave()
        return it.end(is_stopped=it.is_open), place


def at_rest(served):
    """How often a board asks the machine for its page while it waits sixteen times, without desks, and with a viewer or nobody."""
    with Ground() as ground:
        at, place, desks = ports.free_address(), ports.free_address(), [ports.peer(), ports.peer()]
        where = [*map(ports.address_of, desks)]
        words = ["board", "--sheet", SHEET, "--at", at, "--desk-a", where[0], "--desk-b", where[1], "--serve", place]
        with Process(words, ground.folder, "", "") as it:
            viewer = Viewer(place)
            begins = lambda: os.path.exists(f"{ground.top}/record") and (not served or b"event: beat" in viewer.came)
            it.plays(begins, lambda: (viewer.work(), it.wait([], 0.02)))
            counted = lambda: [call.name for call in ground.calls()]
            before = counted()
            it.plays(lambda: counted().count("poll") >= before.count("poll") + 16, lambda: it.wait([], 0.1))
            after = counted()
            viewer.leave()
            it.end(is_stopped=True)
        return after.count("poll") - before.count("poll"), after.count("epoll_wait") - before.count("epoll_wait")


def rests(served):
    """A board at rest asks the machine hardly more often than one without a page: where no wait ended for the page, it isn't looked at."""
    waits, looks = at_rest(served)
    if waits < 16 or looks > 2:
        raise Wrong(f"a board at rest waited {waits} times, and looked {looks} times who came")
    return True


def recorded_page():
    """A life that goes well. It answers the calls for the page."""
    with Ground() as ground:
        end, place = life(ground.folder)
        expect((end[0], end[2]), [(None, f"page: http://{place}/\n")])
        shows_board(ground, end)
        return [it for it in ground.calls() if it.label == "page"]


def is_at_the_beginning(plan):
    """Whether no page can be had where this fails. What the machine holds for viewers may be more."""
    return plan.call in BEGINNING or plan.call in ("setsockopt", "epoll_ctl") and plan.count == 1


def fail_page(plan):
    """A life in which a call for the page fails: the board ends as it begins, where there can be no page, and otherwise goes on,
    and shows the book everywhere."""
    with Ground() as ground:
        end, place = life(ground.folder, plan.text())
        met = plan.met(ground.calls()) is not None
        told = (3, f"cannot listen at {place}\n") if met and is_at_the_beginning(plan) else (None, f"page: http://{place}/\n")
        expect((end[0], end[2]), [told])
        if end[0] is None:
            shows_board(ground, end)
        return met
