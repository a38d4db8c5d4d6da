"""A browser, for tools: Debian's `chromium`, run once for a page, or kept and told what to do by its protocol; and what a page's elements
are."""
import base64, html.parser, json, os, select, shutil, subprocess, time
from .waiting import SOON, Wrong

BROWSER = shutil.which("chromium")
QUIET = ["--no-sandbox", "--disable-gpu", "--disable-dev-shm-usage", "--hide-scrollbars"]


class Node:
    """An element of a page."""

    def __init__(self, name, words, children=()):
        self.name, self.words, self.children = name, words, list(children)

    def text(self):
        return "".join(it if isinstance(it, str) else it.text() for it in self.children)

    def all(self, holds):
        for it in self.children:
            if not isinstance(it, str):
                if holds(it):
                    yield it
                yield from it.all(holds)

    def named(self, *names):
        return list(self.all(lambda it: it.name in names))

    def of_class(self, kind):
        return list(self.all(lambda it: kind in it.words.get("class", "").split()))

    def at(self, id_):
        return next(self.all(lambda it: it.words.get("id") == id_))

    def is_hidden(self):
        return "hidden" in self.words


class Page(html.parser.HTMLParser):
    """What a browser's dump of a page says; its elements stand below `top`."""

    EMPTY = {"meta", "link", "br", "img", "input"}

    def __init__(self, dump):
        super().__init__()
        self.top = Node("", {})
        self.open = [self.top]
        self.feed(dump)

    def handle_starttag(self, name, words):
        node = Node(name, {key: value or "" for key, value in words})
        self.open[-1].children.append(node)
        if name not in self.EMPTY:
            self.open.append(node)

    def handle_endtag(self, name):
        if name not in self.EMPTY:
            while self.open.pop().name != name:
                pass

    def handle_data(self, data):
        self.open[-1].children.append(data)


def browse(folder, *words, budget=None):
    """Runs the browser, and answers what it prints, after so many milliseconds of the page's own time."""
    words = [f"--user-data-dir={folder}", *([f"--virtual-time-budget={budget}"] if budget else []), *words]
    ran = subprocess.run([BROWSER, "--headless=new", *QUIET, *words], stdout=subprocess.PIPE, stderr=subprocess.DEVNULL, text=True, timeout=SOON)
    if ran.returncode:
        raise Wrong(f"the browser ended with status {ran.returncode}")
    return ran.stdout


class Browser:
    """A browser that stays, told what to do by its protocol, over pipes. Pictures go into a folder, where one is named. It is begun behind these words."""

    pictures = None

    def __init__(self, folder, before=()):
        ours, its = os.pipe(), os.pipe()
        words = [BROWSER, "--headless=new", *QUIET, f"--user-data-dir={folder}", "--remote-debugging-pipe", "about:blank"]
        command = 'exec 3<&"$1" 4>&"$2"; shift 2; exec "$@"'
        self.ran = subprocess.Popen([*before, "bash", "-c", command, "bash", str(ours[0]), str(its[1]), *words], pass_fds=(ours[0], its[1]),
                                    stdin=subprocess.DEVNULL, stdout=subprocess.DEVNULL, stderr=subprocess.DEVNULL)
        os.close(ours[0]), os.close(its[1])
        self.to, self.of, self.held, self.number, self.wrong = ours[1], its[0], b"", 0, []

    def call(self, method, session=None, **values):
        self.number += 1
        told = {"id": self.number, "method": method, "params": values, **({"sessionId": session} if session else {})}
        os.write(self.to, json.dumps(told).encode() + b"\0")
        while True:
            found = self.message()
            if found.get("id") == self.number:
                if "error" in found:
                    raise Wrong(f"{method}: {found['error']}")
                return found["result"]

    def message(self, seconds=30):
        while b"\0" not in self.held:
            if not select.select([self.of], [], [], seconds)[0]:
                raise Wrong("the browser doesn't answer")
            more = os.read(self.of, 1 << 20)
            if not more:
                raise Wrong("the browser has ended")
            self.held += more
        text, self.held = self.held.split(b"\0", 1)
        found = json.loads(text)
        if found.get("method") == "Runtime.exceptionThrown" or (
                found.get("method") == "Log.entryAdded" and found["params"]["entry"]["level"] == "error" and "net::" not in text.decode()):
            self.wrong.append(text.decode()[:400])
        return found

    def open(self, address, width, height):
        return Tab(self, address, width, height)

    def end(self):
        self.ran.kill()
        self.ran.wait()


class Tab:
    """A page in it, of a size."""

    def __init__(self, browser, address, width, height):
        self.browser = browser
        self.target = browser.call("Target.createTarget", url="about:blank")["targetId"]
        self.session = browser.call("Target.attachToTarget", targetId=self.target, flatten=True)["sessionId"]
        for name in ("Runtime", "Log", "Page"):
            self.call(f"{name}.enable")
        self.call("Emulation.setDeviceMetricsOverride", width=width, height=height, deviceScaleFactor=1, mobile=width < 500)
        self.call("Page.navigate", url=address)

    def call(self, method, **values):
        return self.browser.call(method, self.session, **values)

    def run(self, code):
        found = self.call("Runtime.evaluate", expression=code, returnByValue=True, awaitPromise=True)
        if "exceptionDetails" in found:
            raise Wrong(f"{code}: {found['exceptionDetails']}")
        return found["result"].get("value")

    def until(self, code, seconds=20):
        end = time.time() + seconds
        while not self.run(f"location.href !== 'about:blank' && document.readyState === 'complete' && ({code})"):
            if time.time() > end:
                raise Wrong(f"not in time: {code}, but {self.run('document.body.innerText.slice(0, 300)')!r}")
            time.sleep(0.01)

    def top(self):
        return Page(self.run("document.documentElement.outerHTML")).top

    def picture(self, name):
        if self.browser.pictures:
            self.call("Page.bringToFront")
            data = self.call("Page.captureScreenshot", format="png")["data"]
            with open(f"{self.browser.pictures}/{name}.png", "wb") as file:
                file.write(base64.b64decode(data))


def option(words, name, takes=True):
    """An option's value, which is taken out of the words; nothing where it isn't there."""
    if name not in words:
        return None
    where = words.index(name)
    found = words[where + 1] if takes else name
    del words[where : where + 1 + takes]
    return found


def pictures_of(words):
    """The folder that `--pictures` names, which is made, for all browsers."""
    found = option(words, "--pictures")
    if found:
        Browser.pictures = os.path.realpath(found)
        os.makedirs(Browser.pictures, exist_ok=True)
    return Browser.pictures


def in_turn(tool, parts, begin=Browser):
    """Tries parts of a tool, which each get a new folder and a browser; so many are wrong."""
    from . import cases

    def tried(part):
        def case(folder):
            browser = begin(f"{folder}/browser")
            try:
                os.makedirs(f"{folder}/ground")
                return part(f"{folder}/ground", browser)
            finally:
                browser.end()

        return case

    return cases.run(tool, {part.__name__: tried(part) for part in parts})
