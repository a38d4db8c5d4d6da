"""Scorers who tap: a match of desks with a page each, a browser in which a page is tapped by a finger or a mouse, the taps of each line, and
what hurts at a page."""
import json, os, re, signal, subprocess, threading, time
from . import browsers, matches, places
from .browsers import BROWSER
from .places import printed, read_sheet, written
from .ports import free_address
from .waiting import Wrong, wait_for

SIZES = {"telephone": (390, 844), "tablet": (1024, 768), "laptop": (1280, 720)}
SOON = 20
# Taps at one spot so soon after each other are one to the page.
APART = 0.43

# What hurts at a page: targets that are too small, letters that are too pale, what is cut off or lies under something else.
AUDIT = r"""(() => {
  const found = [];
  const part = v => (v /= 255) <= .03928 ? v / 12.92 : ((v + .055) / 1.055) ** 2.4;
  const light = ([r, g, b]) => .2126 * part(r) + .7152 * part(g) + .0722 * part(b);
  const colour = text => (text.match(/[\d.]+/g) || [0, 0, 0, 0]).map(Number);
  const ground = e => {
    for (; e; e = e.parentElement) { const c = colour(getComputedStyle(e).backgroundColor); if (c.length < 4 || c[3] === 1) return c; }
    return [255, 255, 255];
  };
  const isCovered = !document.getElementById('sheet').hidden;
  const isSeen = e => {
    const r = e.getBoundingClientRect();
    return r.width > 2 && r.height > 2 && e.checkVisibility({ visibilityProperty: true }) && !e.closest('.unseen') && !(isCovered && !e.closest('#sheet'));
  };
  for (const e of document.querySelectorAll('button, input')) {
    if (!isSeen(e)) continue;
    const r = e.getBoundingClientRect();
    if (r.width < 47.9 || r.height < 47.9) found.push('small ' + e.textContent + ' ' + r.width + 'x' + r.height);
    if (e.scrollWidth > e.clientWidth + 1 || e.scrollHeight > e.clientHeight + 1) found.push('cut ' + e.textContent);
    if (!e.textContent && !e.labels) found.push('no name');
  }
  const walk = document.createTreeWalker(document.body, NodeFilter.SHOW_TEXT);
  while (walk.nextNode()) {
    const text = walk.currentNode.nodeValue.trim(), e = walk.currentNode.parentElement;
    if (!text || e.closest('script, style, [aria-disabled="true"]') || !isSeen(e)) continue;
    const a = light(colour(getComputedStyle(e).color)), b = light(ground(e)), ratio = (Math.max(a, b) + .05) / (Math.min(a, b) + .05);
    if (ratio < 7) found.push('pale ' + ratio.toFixed(2) + ' ' + text.slice(0, 30));
  }
  const whole = document.documentElement, box = document.getElementById('message');
  if (whole.scrollWidth > innerWidth || whole.scrollHeight > innerHeight) found.push('larger than the screen');
  if (!isCovered && innerHeight > 650 && box.scrollHeight > box.clientHeight + 1) found.push('message cut: ' + box.innerText);
  if ([...document.querySelectorAll('#pads button')].some(e => e.getBoundingClientRect().bottom > innerHeight)) found.push('a pad is off the screen');
  return found;
})()"""


# Where a button is.
SPOT = r"""(() => {
  const [within, text] = %s;
  const says = e => [(e.firstChild?.nodeValue || '').trim(), e.innerText.replace(/\s+/g, ' ').trim()];
  const all = [...document.querySelectorAll(within)].filter(e => e.getAttribute('aria-disabled') !== 'true' && e.checkVisibility());
  const one = all.find(e => text === null || says(e).includes(text));
  if (!one || isDown) return null;
  one.scrollIntoView({ block: 'nearest', inline: 'nearest' });
  const r = one.getBoundingClientRect(), x = r.x + r.width / 2, y = r.y + r.height / 2, top = document.elementFromPoint(x, y);
  return top && one.contains(top) ? [x, y] : null;
})()"""


class Match(matches.Match):
    """Two desks, those that are named with a page each, and a board."""

    def __init__(self, folder, sheet=None, pages="a"):
        super().__init__(folder, sheet or places.SHEET)
        self.pages, self.links, self.used = pages, {}, set()
        self.places = {letter: free_address() for letter in "ab"}
        self.begin("c")
        for letter in "ab":
            self.begin(letter)

    desks = property(lambda self: {it: self.stations[it] for it in "ab"})

    def begin(self, *names, **more):
        """Has a station begin; a desk with a page tells its link."""
        for letter in names:
            more = {"more": ["--serve", self.places[letter]]} if letter in self.pages else {}
            super().begin(letter, **more)
            if letter in self.pages:
                self.wait_link(letter, 1)

    def links_of(self, letter):
        return re.findall(r"http://\S+#[0-9a-f]{32}", "\n".join([*self[letter].rows]))

    def wait_link(self, letter, count):
        """Waits until a desk has told so many links."""
        wait_for(f"a link of desk {letter}", lambda: len(self.links_of(letter)) >= count, SOON, lambda: self[letter].rows)
        self.links[letter] = self.links_of(letter)[-1]

    def new_square(self, letter, word="page"):
        """Has a desk show another square."""
        count = len(self.links_of(letter))
        self[letter].say(word)
        self.wait_link(letter, count + 1)

    def address(self, letter):
        """A link whose ticket wasn't given out here before."""
        if self.links[letter] in self.used:
            self.new_square(letter)
        self.used.add(self.links[letter])
        return self.links[letter]

    def end(self):
        self["c"].kill()
        for desk in self.pair():
            desk.send_signal(signal.SIGCONT)
            desk.ran.stdin.close()
        for desk in self.pair():
            try:
                desk.ran.wait(5)
            except subprocess.TimeoutExpired:
                desk.kill()

    def agreed(self):
        """What `compare` tells at the end of both files."""
        return printed("compare", "--sheet", self.sheet, "--a", self.file("a"), "--b", self.file("b")).splitlines()


class Robot(threading.Thread):
    """A scorer at desk B's keyboard who writes at once what A has written."""

    def __init__(self, match):
        super().__init__(daemon=True)
        self.match, self.ends = match, False

    def run(self):
        while not self.ends:
            for row in self.match.desks["a"].heard():
                found = re.fullmatch(r"\d+ pending: (.*)", row)
                if found:
                    self.match.desks["b"].say(found[1])
            time.sleep(0.02)


class Browser(browsers.Browser):
    """A browser with a window for each page: all are seen at once."""

    def call(self, method, session=None, **values):
        if method == "Target.createTarget":
            values["newWindow"] = True
        return super().call(method, session, **values)


class Finger(browsers.Tab):
    """A page that is tapped: by a finger, or at a laptop by a mouse."""

    def __init__(self, browser, address, width, height, grace=None):
        self.width, self.taps, self.last, self.sizes = width, 0, (0, 0, 0), []
        super().__init__(browser, address if grace is None else address.replace("/#", f"/?grace={grace}#"), width, height)
        self.is_mouse = width > 1100
        if not self.is_mouse:
            self.call("Emulation.setTouchEmulationEnabled", enabled=True, maxTouchPoints=1)
        self.until("state !== null && isOpen")

    def tap_at(self, x, y):
        self.taps += 1
        self.last = (time.time(), x, y)
        if self.is_mouse:
            for kind in ("mousePressed", "mouseReleased"):
                self.call("Input.dispatchMouseEvent", type=kind, x=x, y=y, button="left", clickCount=1)
        else:
            self.call("Input.dispatchTouchEvent", type="touchStart", touchPoints=[{"x": x, "y": y}])
            self.call("Input.dispatchTouchEvent", type="touchEnd", touchPoints=[])

    def spot(self, within, text):
        """Where a button is that says so, not dimmed and not under something else."""
        return self.run(SPOT % json.dumps([within, text]))

    def found(self, within, text=None):
        """Where such a button is, once there is one."""
        end = time.time() + SOON
        is_whole = " button" in within or "[" in within or within in ("#open-told", "#close-told", "#back")
        while True:
            spot = self.spot(within if is_whole else within + " button", text)
            if spot:
                return spot
            if time.time() > end:
                raise Wrong(f"no button {text!r} in {within}: {self.run('document.body.innerText')[:700]!r}")
            time.sleep(0.02)

    def tap(self, within, text=None):
        x, y = self.found(within, text)
        since, was_x, was_y = self.last
        if abs(was_x - x) < 45 and abs(was_y - y) < 45:
            time.sleep(max(0, since + APART - time.time()))
        # What has just come takes no tap.
        time.sleep(0.32 if within.startswith("#answers") else 0.02)
        self.tap_at(x, y)

    def text(self, id_):
        return self.run(f"document.getElementById({id_!r}).innerText")

    def has(self, within, text):
        return self.spot(within + " button", text) is not None

    def reload(self):
        self.run("window.isOld = true")
        self.call("Page.reload")
        self.until("window.isOld === undefined && state !== null && isOpen")

    def close(self):
        self.browser.call("Target.closeTarget", targetId=self.target)

    def rests(self):
        """All that was tapped is told."""
        self.until("!held && !sent && now() > settles")

    def audited(self, name):
        """A picture, in light and in dark, and nothing that hurts."""
        for scheme in ("light", "dark"):
            self.call("Emulation.setEmulatedMedia", features=[{"name": "prefers-color-scheme", "value": scheme}])
            found = self.run(AUDIT)
            if found:
                HURTS.append(f"{name} {scheme}: {found[:6]}")
            self.picture(f"{name}-{scheme}")
        self.call("Emulation.setEmulatedMedia", features=[])


HURTS = []
PAD = {"bat 0": ".", "bat 1": "1", "bat 2": "2", "bat 3": "3", "bat 0 four": "4", "bat 0 six": "6"}
WIDE = {"0": "Wide only", "1": "and 1 run", "2": "and 2", "3": "and 3", "0 four": "to the boundary"}
NO_BALL = {
    "nb 0": "No ball only", "nb 1": "1 off the bat", "nb 2": "2 off the bat", "nb 0 four": "4 boundary, bat", "nb 0 six": "6 off the bat",
    "nbbye 1": "1 bye", "nbbye 2": "2 byes", "nbbye 0 four": "4 byes, boundary", "nbleg 1": "1 leg bye", "nbleg 2": "2 leg byes",
    "nbleg 0 four": "4 leg byes, boundary",
}
WAYS = {"bowled": "Bowled", "lbw": "LBW", "hitwicket": "Hit wicket", "hittwice": "Hit twice", "caught": "Caught", "stumped": "Stumped"}
SHEET = read_sheet(places.SHEET)


def person(side, number):
    return "Substitute" if number == "12" else "Not known" if number == "0" else SHEET[side]["players"][int(number) - 1]


def choose(tab, name):
    """By a likely answer, or else among all."""
    if tab.has("#answers", name):
        return tab.tap("#answers", name)
    tab.tap("#answers", "Another")
    tab.tap("#choices", name)


def tap_out(tab, runs, out, field):
    """A wicket."""
    how, who, number, *crossed = out
    if how == "stumped" and runs.startswith("wide"):
        tab.tap('#pads [data-pad="wide"]')
        tab.tap("#choices", "Stumped")
        return tab.tap("#choices", person(field, number))
    tab.tap('#pads [data-pad="wicket"]')
    if how == "runout":
        tab.tap("#choices", "Run out")
        tab.tap("#choices", runs.split()[1])
        tab.tap("#choices", "Striker" if who == "striker" else "Other batter")
        tab.tap("#choices", person(field, number))
        return tab.tap("#choices", "Yes, crossed" if crossed else "No")
    tab.tap("#choices", WAYS[how])
    if how in ("caught", "stumped"):
        tab.tap("#choices", person(field, number))


def tap_ball(tab, words, field):
    """A delivery, without its bowler."""
    text = " ".join(words)
    runs, _, out = text.partition(" out ")
    if out:
        return tap_out(tab, runs, out.split(), field)
    kind, rest = words[0], " ".join(words[1:])
    if text in PAD:
        tab.tap(f'#pads [data-line="{PAD[text]}"]')
    elif kind == "wide":
        tab.tap('#pads [data-pad="wide"]')
        tab.tap("#choices", WIDE[rest])
    elif kind in ("nb", "nbbye", "nbleg"):
        tab.tap('#pads [data-pad="noball"]')
        tab.tap("#choices", NO_BALL[text])
    elif kind in ("bye", "leg"):
        tab.tap('#pads [data-pad="%s"]' % ("bye" if kind == "bye" else "legbye"))
        tab.tap("#choices", "4 boundary" if rest == "0 four" else rest)
    elif "short" in words:
        tab.tap('#pads [data-pad="more"]')
        tab.tap("#choices", "Short run")
        tab.tap("#choices", words[1])
        tab.tap("#choices", words[3])
    elif "overthrow" in words:
        tab.tap('#pads [data-pad="more"]')
        tab.tap("#choices", "Overthrows")
        tab.tap("#choices", words[1])
    else:
        raise Wrong(f"no taps for {text}")


def tap_line(tab, line):
    """A full line, by taps."""
    word, *rest = line.split()
    side = tab.run("batting()")
    field = "away" if side == "home" else "home"
    if word == "innings":
        tab.tap("#answers", SHEET[rest[0]]["name"])
    elif word == "in":
        choose(tab, person(side, rest[0]))
    elif word == "over":
        tab.tap('#pads [data-pad="over"]')
    elif word == "ball":
        if tab.run("wants() === 'bowler' && bowler === null"):
            name = person(field, rest[0])
            if tab.has("#answers", name):
                tab.tap("#answers", name)
            else:
                tab.tap("#answers", "Another")
                tab.tap("#choices", name)
        tap_ball(tab, rest[1:], field)
    elif word == "gone":
        tab.tap('#pads [data-pad="more"]')
        tab.tap("#choices", {"retiredhurt": "Retired hurt"}[rest[0]])
        tab.tap("#choices", person(side, rest[1]))
    elif word == "penalty":
        tab.tap('#pads [data-pad="more"]')
        tab.tap("#choices", "Penalty runs")
        tab.tap("#choices", f"{rest[1]}.{rest[2]}")
        tab.tap("#choices", SHEET[rest[0]]["name"])
    elif word == "end":
        tab.tap("#answers", {"allout": "All out", "overs": "End innings"}[rest[0]])
    else:
        raise Wrong(f"no taps for {line}")


def play(tab, lines, each=lambda place: None):
    """Taps lines, each once the one before is agreed; the taps of each kind of line."""
    counts = {}
    for place, line in enumerate(lines):
        tab.until(f"state.place === {place} && state.pending === null")
        tab.rests()
        each(place)
        before = tab.taps
        try:
            tap_line(tab, line)
            tab.until(f"state.place > {place}")
        except Wrong as why:
            raise Wrong(f"place {place}, {line}: {why}; {tab.text('state')!r}") from None
        word = line.split()
        key = "wicket" if " out " in line else word[0] if word[0] != "ball" else {"bat": "run", "bye": "bye", "leg": "bye"}.get(word[2], "wide, no ball")
        counts.setdefault(key, []).append(tab.taps - before)
    tab.rests()
    return counts


def card(match, lines):
    """The card of these lines, and that of both files."""
    book = written(f"{match.folder}/book.txt", lines)
    wanted = printed("card", "--sheet", match.sheet, "--kind", "book", "--from", book)
    return wanted, printed("card", "--sheet", match.sheet, "--kind", "both", "--from", f"{match.folder}/a.votes", "--with", f"{match.folder}/b.votes")


def quiet(browser):
    """What the browser says is wrong, but for statuses that are looked for."""
    found = [it for it in browser.wrong if "Failed to load resource" not in it]
    if found:
        raise Wrong(f"the browser says {found[:3]}")


def with_audit(part):
    """A part, which is wrong too where something hurt in it."""

    def audited(folder, browser):
        what = part(folder, browser)
        if HURTS:
            raise Wrong("; ".join(HURTS))
        return what

    audited.__name__ = part.__name__
    return audited


def in_turn(tool, parts, only=None):
    """Tries these parts, or the one that is named, in a browser each; the status."""
    if BROWSER is None:
        print(f"{tool}: there is no chromium here, so nothing was tried")
        return 0
    return 1 if browsers.in_turn(tool, [with_audit(it) for it in parts if only in (None, it.__name__)], Browser) else 0
