"""What follows for a match of so many overs, reckoned from the lines that stand: what a board's file and a desk's row have to tell.

It knows nothing of the program: the sheet's table `limits`, the plain lines, and what docs/LINES.md says of them are enough.
What the file tells before the first entry stands in begun.json.
"""
import json, os
from decimal import ROUND_HALF_UP, Decimal

BEGUN = f"{os.path.dirname(os.path.realpath(__file__))}/begun.json"

FAIR = ("bat", "bye", "leg")
BOUNDARIES = {"four": 4, "six": 6}
NOBODY = [None, None]


def begun(match, title, overs=(), a=None, b=None):
    """The file of a match without an entry, of so many overs an innings, of a board that heard its desks so many seconds ago."""
    with open(BEGUN) as it:
        value = json.load(it)
    limits = {**value["limits"], "overs": list(overs)}
    return json.dumps({**value, "match": match, "title": title, "limits": limits, "heard": {"a": a, "b": b}}, separators=(",", ":"), ensure_ascii=False) + "\n"


def counts(line):
    """Whether a delivery counts in its over."""
    return line[2] in FAIR and "dead" not in line


def scored(line):
    """The runs of a delivery beyond a Wide's or a No ball's own."""
    ran = int(line[3])
    return 4 + ran if "overthrow" in line else max([ran, *(BOUNDARIES[it] for it in line if it in BOUNDARIES)])


def runs_of(line):
    """All of them."""
    return scored(line) + (line[2] not in FAIR)


def rate(runs, deliveries, each=6):
    """Runs for so many deliveries, with two places, halves up."""
    if runs is None or not deliveries:
        return None
    return str((Decimal(runs * each) / deliveries).quantize(Decimal("0.01"), ROUND_HALF_UP))


def ends_after(line, ends):
    """Who is at the striker's end and at the other after a delivery."""
    ran, short = int(line[3]), int(line[line.index("short") + 1]) if "short" in line else 0
    if "out" in line:
        how, who = line[line.index("out") + 1 :][:2]
        gone = ends[0 if who == "striker" else 1]
        if how not in ("runout", "obstructing"):
            return [None, ends[1]]
        turned = ends[::-1] if (ran + short + ("crossed" in line)) % 2 else ends
        return [None if it == gone else it for it in turned]
    worth = max((BOUNDARIES[it] for it in line if it in BOUNDARIES), default=-1)
    return ends[::-1] if ran > worth and (ran + short) % 2 else ends


class Course:
    """The course of a match, line by line."""

    def __init__(self):
        self.innings, self.side, self.all_overs, self.totals, self.falls, self.stands = 0, None, [], {}, [], []
        self.begin(False)

    def begin(self, is_open):
        self.is_open, self.called, self.over, self.is_free, self.ends = is_open, [], [], False, NOBODY
        self.part()

    def part(self):
        """A partnership begins: its runs and balls, and of them each batter's."""
        self.runs, self.balls, self.shares = 0, 0, {}

    def fall(self):
        """A wicket falls: after so many overs, and at such a ball of the next one. It ends a partnership."""
        self.falls[-1].append(f"{len(self.called)}.{sum(it for _, it, _ in self.over)}")
        self.stands[-1].append([str(self.runs), str(self.balls)])
        self.part()

    def share(self, player):
        return None if player is None else dict(zip(("runs", "balls"), self.shares.get(player, (0, 0))))

    def play(self, line):
        """A delivery: the partnership first, which a wicket ends."""
        faced, batted = line[2] != "wide", scored(line) if line[2] in ("bat", "nb") else 0
        runs, balls = self.shares.get(self.ends[0], (0, 0))
        self.shares[self.ends[0]] = runs + batted, balls + faced
        self.runs, self.balls = self.runs + runs_of(line), self.balls + faced
        self.over.append((int(line[1]), counts(line), runs_of(line)))
        self.totals[self.side] += runs_of(line)
        self.is_free = line[2].startswith("nb") or self.is_free and not counts(line)
        self.ends = ends_after(line, self.ends)
        if "out" in line:
            self.fall()

    def take(self, line):
        word = line[0]
        if word == "innings":
            self.innings, self.side = self.innings + 1, line[1]
            self.totals.setdefault(self.side, 0)
            self.falls.append([])
            self.stands.append([])
        if word in ("innings", "end"):
            self.begin(word == "innings")
        elif word == "over":
            self.all_overs.append({"innings": self.innings, "runs": sum(it for _, _, it in self.over)})
            self.called.append(self.over)
            self.over, self.ends = [], self.ends[::-1]
        elif word == "ball":
            self.play(line)
        elif word == "in":
            self.ends = [int(line[1]), self.ends[1]] if self.ends[0] is None else [self.ends[0], int(line[1])]
        elif word == "swap":
            self.ends = self.ends[::-1]
        elif word == "gone":
            self.ends = [None if it == int(line[2]) else it for it in self.ends]
            if line[1] != "retiredhurt":
                self.fall()


def course_of(lines):
    course = Course()
    for line in lines:
        course.take(line)
    return course


def overs_of(limits, course):
    """How many overs the open innings has, how many are left of them, and how many deliveries."""
    overs = limits.get("overs", [])
    overs = overs if isinstance(overs, list) else [overs]
    if not overs or not course.is_open:
        return None, None, None
    most = overs[min(course.innings, len(overs)) - 1]
    left = max(0, most - len(course.called))
    return most, left, max(0, 6 * left - min(6, sum(it for _, it, _ in course.over)))


def told(limits, lines, innings, bowler, needs):
    """What a board tells of these lines. `innings` is the last one of its file, if there is one, of which the total and the
    overs are looked at elsewhere."""
    course = course_of(lines)
    most, left, balls = overs_of(limits, course)
    now = len(course.called) + 1
    powerplays = [n for n, (first, last) in enumerate(limits.get("powerplays", []), 1) if course.is_open and first <= now <= last]
    had = innings and [int(it) for it in innings["overs"].split(".")]
    recent = course.called[-5:]
    by = sum(any(one == bowler for one, _, _ in over) for over in [*course.called, course.over])
    stand = {"runs": course.runs, "balls": course.balls, "striker": course.share(course.ends[0]), "other": course.share(course.ends[1])}
    return {
        "overs": most,
        "overs_left": left,
        "balls_left": balls,
        "needed_an_over": rate(needs, balls),
        "needed_a_ball": rate(needs, balls, 1),
        "run_rate": rate(innings["runs"], 6 * had[0] + had[1]) if innings else None,
        "last_rate": rate(sum(it for over in recent for _, _, it in over), 6 * len(recent)),
        "free_hit": limits.get("free_hits", False) and course.is_free,
        "powerplay": powerplays[0] if powerplays else None,
        "bowler_overs": None if bowler is None else by,
        "partnership": stand if course.is_open else None,
    }, course.all_overs


def chase(limits, lines):
    """What a desk's row has of a chase of one innings a side, in which no penalty runs were awarded: the total with the overs; a
    free hit; at its end, from the sixth ball on, how many the over has; and the row behind it, what is needed. It is won where that is None."""
    course = course_of(lines)
    most, left, balls = overs_of(limits, course)
    total, other = course.totals[course.side], sum(it for side, it in course.totals.items() if side != course.side)
    wickets = sum("out" in it for it in lines[lines.index(["innings", course.side]) :])
    needs, had = other + 1 - total, sum(it for _, it, _ in course.over)
    rated = rate(needs, balls)
    return (
        f" {total} for {wickets} ({len(course.called)}.{had} of {most})",
        limits.get("free_hits", False) and course.is_free,
        f"  {had} balls" if had >= 6 else "",
        f"  needs {needs} off {balls}" + (f" ({rated})" if rated else "") if needs > 0 else None,
    )
