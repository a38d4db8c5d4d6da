"""Tablets for tools: the app (web/app) in browsers, each with a profile of its own, from a host that knows files alone."""
import base64, functools, http.server, json, os, signal, subprocess, threading, time
from . import places
from .browsers import Browser
from .firefox import Firefox
from .waiting import Wrong, wait_for, wants

SIZES = {"tall": (390, 844), "wide": (1024, 768)}
FORM = {"home": "Alder", "away": "Birch", "home_players": "Amin\nBaker\nCarr\nDube\nEllis\nFrost\nGrant\nHale\nIqbal\nJones\nKemp",
        "away_players": "Lamb, Moss, Nash, Owen, Patel, Quinn, Reid, Shah, Todd, Usher, Vale", "overs": "20", "toss": "away field"}
OPENED = "document.getElementById('state').textContent === '' && !document.getElementById('make').disabled"
# Stands for a camera, and for a browser that knows squares: what is before it is `window.square`.
CAMERA = """window.stopped = 0; window.BarcodeDetector = class { async detect() { return window.square ? [{ rawValue: window.square }] : []; } };
    navigator.mediaDevices.getUserMedia = async () => { const paper = document.createElement("canvas"); paper.getContext("2d"); const stream = paper.captureStream(5);
      stream.getTracks().forEach(it => { const stop = it.stop.bind(it); it.stop = () => { window.stopped++; stop(); }; }); return stream; };"""


class Handler(http.server.SimpleHTTPRequestHandler):
    """A host that knows files and nothing else: no header isolates a page."""

    asked = []

    def log_message(self, *_):
        pass

    def do_GET(self):
        self.asked.append(self.path)
        super().do_GET()


class Host:
    def __init__(self, folder, port=0):
        self.server = http.server.ThreadingHTTPServer(("127.0.0.1", port), functools.partial(Handler, directory=folder))
        self.server.daemon_threads = True
        self.port = self.server.server_address[1]
        threading.Thread(target=self.server.serve_forever, daemon=True).start()

    @property
    def link(self):
        return f"http://127.0.0.1:{self.port}/"

    def end(self):
        self.server.shutdown()
        self.server.server_close()


class Tablet:
    """A browser with a profile of its own, and the app in it."""

    def __init__(self, folder, link, size="tall", before=()):
        self.browser, self.link, self.size = Browser(folder, before), link, size
        self.open()

    def open(self, behind="?trace"):
        self.tab = self.browser.open(self.link + behind, *SIZES[self.size])

    def run(self, code):
        return self.tab.run(code)

    def until(self, code, seconds=30):
        self.tab.until(code, seconds)

    def press(self, id_):
        self.run(f"document.getElementById({id_!r}).click()")

    def is_open(self):
        self.until(OPENED, 60)

    def told(self):
        return self.run("document.getElementById('told').textContent")

    def code(self):
        self.until("!document.getElementById('shown-code').hidden && document.getElementById('code-text').value")
        return self.run("document.getElementById('code-text').value")

    def paste(self, code):
        self.run(f"document.getElementById('paste').value = {code!r}")
        self.press("take-code")

    def fill_in(self):
        self.press("make")
        self.run(f"Object.entries({json.dumps(FORM)}).forEach(([name, it]) => {{ document.getElementById('making').elements[name].value = it; }})")
        self.run("document.getElementById('making').dispatchEvent(new Event('input'))")

    def make(self):
        self.fill_in()
        self.press("make-it")

    def join(self, code):
        self.press("join")
        self.paste(code)

    def open_again(self, behind="?trace"):
        """Closes the page as a tablet does, and opens the app's newest match."""
        self.tab.browser.call("Target.closeTarget", targetId=self.tab.target)
        self.open(behind)
        self.is_open()
        self.run("document.querySelector('#matches button').click()")
        self.until("window.playing && playing.is_shown")

    def type(self, line):
        self.run(f"playing.station.type({line!r})")

    def agreed(self, place, seconds=30):
        try:
            self.until(f"('\\n' + playing.station.rows).includes('\\n{place} agreed')", seconds)
        except Wrong as why:
            raise Wrong(f"{why}; its rows: {self.run('playing.station.rows.slice(-300) + playing.station.errors.slice(-200)')}")

    def votes(self):
        return base64.b64decode(self.run("playing.station.votes().then(it => btoa(String.fromCharCode(...it)))"))

    def is_joined(self, to, seconds=30):
        self.until(f"playing.network.has({to!r})", seconds)

    def picture(self, name):
        time.sleep(0.3)
        self.tab.picture(f"{name}-{self.size}")

    def end(self):
        # a press by script is none by hand, without which a page may not shake
        wrong = [it for it in self.browser.wrong if "navigator.vibrate" not in it]
        self.browser.end()
        return wrong


class Fox(Tablet):
    """The same in Firefox."""

    def __init__(self, folder, link):
        self.browser, self.link, self.size = Firefox(folder), link, "tall"
        self.browser.wrong = []
        self.open()

    def open(self, behind="?trace"):
        self.browser.go(self.link + behind)

    def run(self, code):
        """What it comes to within the page."""
        answer = self.browser.call("WebDriver:ExecuteAsyncScript", sandbox=None, args=[], script=f"""
            const done = arguments[arguments.length - 1];
            (async () => {code})().then(it => done([true, it ?? null]), why => done([false, String(why)]));""")["value"]
        wants(answer is None or answer[0], f"{code}: {answer and answer[1]}")
        return answer and answer[1]  # nothing where the page was loaded anew meanwhile

    def until(self, code, seconds=30):
        wait_for(code, lambda: self.run(code), 4 * seconds, lambda: self.run("document.body.innerText.slice(0, 400)"), 0.05)

    def open_again(self, behind="?trace"):
        self.browser.go("about:blank")
        self.open(behind)
        self.is_open()
        self.run("document.querySelector('#matches button').click()")
        self.until("window.playing && playing.is_shown")

    def picture(self, name):
        time.sleep(0.3)
        self.browser.picture(f"{name}-firefox", Browser.pictures)


def joined(a, b):
    """Carries a code each way."""
    before = b.run("document.getElementById('code-text').value")
    b.paste(a.code())
    b.until(f"document.getElementById('code-text').value !== {before!r}")
    a.paste(b.code())
    a.until("!joining.offers.has('b')")
    a.is_joined("b"), b.is_joined("a")


def match_of(a, b):
    """Has two tablets have a match that is joined."""
    for it in a, b:
        it.is_open()
    a.make()
    b.join(a.code())
    a.paste(b.code())
    a.is_joined("b"), b.is_joined("a")


def pair(folder, host, size="tall"):
    """Two tablets with a match that is joined."""
    a, b = (Tablet(f"{folder}/{it}", host.link, size) for it in "ab")
    match_of(a, b)
    return a, b


def ended_at_once(browser):
    """Ends a browser as a power cut does: all its processes, amid all."""
    mine, rows = {browser.ran.pid}, [it.split() for it in subprocess.run(["ps", "-eo", "pid=,ppid="], capture_output=True, text=True).stdout.splitlines()]
    for _ in rows:
        mine |= {int(pid) for pid, parent in rows if int(parent) in mine}
    for pid in sorted(mine, reverse=True):
        try:
            os.kill(pid, signal.SIGKILL)
        except ProcessLookupError:
            pass
    browser.ran.wait(20)


def both(tablets, line, place):
    """Both write a line; how many milliseconds passed until both have it agreed."""
    began = time.time()
    for it in tablets:
        it.type(line)
    for it in tablets:
        it.agreed(place)
    return 1000 * (time.time() - began)


def innings(count):
    """So many entries."""
    lines = ["innings home", "in 1", "in 2"]
    for over in range(count):
        lines += [f"ball {7 + over % 2} bat {runs}" for runs in (0, 2, 1, 0, 3, 0)] + ["over"]
    return lines[:count]


def compared(folder, a, b):
    """What the program's `compare` says of both handed-out files."""
    sheet = places.put(f"{folder}/sheet.toml", a.run("playing.match.sheet"))
    files = [places.put(f"{folder}/{name}.votes", it.votes()) for name, it in (("a", a), ("b", b))]
    return places.printed("compare", "--sheet", sheet, "--a", files[0], "--b", files[1])
