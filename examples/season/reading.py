"""Reads matches: what the program tells of their sheets and of both desks' files, as rows of the season's tables.

`read_matches` answers a `Match` of each folder, or the reason why the match isn't to be taken.
"""
import hashlib
import json
import os
import subprocess
import sys
import tomllib
from dataclasses import dataclass, field

from frames import CONTROL, Printing

sys.path.append(os.path.join(os.path.dirname(os.path.realpath(__file__)), ".."))
from read_export import CREDITED, OUTCOME, Card, Wrong, balls_penned, boundary, compare, counts, deliveries_of, standing, wants

FILES = ("sheet.toml", "a.votes", "b.votes")
RESULTS = {"draw": "drawn", "tie": "tied", "no result": "no result"}
PENALTY_RUNS = "penalty runs"
EXTRAS = ("wides", "noballs", "byes", "legbyes", "penalty")
# the columns of a delivery
DELIVERY = (
    "innings", "team", "number", "over", "ball", "fielding", "striker", "non_striker", "bowler", "runs_off_bat", *EXTRAS, "total", "boundary", "counts",
)
# how a batter is out who isn't out by a delivery
OUT_BETWEEN = {"timedout": "timed out", "retiredout": "retired out", "runout": "run out"}


class LeftOut(Exception):
    """Why a match isn't taken."""


@dataclass
class Match:
    """A match's row of `matches`, and its rows of each other table, by table and columns."""

    row: dict
    tables: dict = field(default_factory=dict)

    @property
    def key(self):
        """By what it is known."""
        return self.row["number"], self.row["home"], self.row["away"]

    def add(self, table, **row):
        self.add_rows(table, tuple(row), [tuple(row.values())])

    def add_rows(self, table, columns, rows):
        """Adds rows of a table: what each has in these columns."""
        self.tables.setdefault((table, columns), []).extend(rows)


def paths_of(folder):
    """The sheet and both desks' files of a match's folder."""
    paths = [os.path.join(folder, name) for name in FILES]
    for name, path in zip(FILES, paths):
        if not os.path.isfile(path):
            raise LeftOut(f"there is no {name}")
    return paths


def hash_of(folder):
    """A hash that changes where the sheet or a desk's file does."""
    hashes = hashlib.sha256()
    for path in paths_of(folder):
        with open(path, "rb") as file:
            hashes.update(hashlib.sha256(file.read()).digest())
    return hashes.hexdigest()


def told_by(program, *words):
    """What the program prints, or the reason that it gives."""
    ran = subprocess.run([program, *words], stdin=subprocess.DEVNULL, capture_output=True, text=True)
    if ran.returncode:
        raise LeftOut((ran.stderr or ran.stdout).strip().split("\n")[-1] or f"status {ran.returncode}")
    return ran.stdout


def must_be_one_record(program, folder, frame):
    """Leaves the match out where its files aren't one record to the last entry: where one of them has a place that isn't agreed."""
    if max(frame.a, frame.b) <= frame.agreed:
        return
    sheet, a, b = paths_of(folder)
    *places, told = told_by(program, "compare", "--sheet", sheet, "--a", a, "--b", b).splitlines()
    agreed = int(told.split(",")[0].removeprefix("agreed "))
    for line in places:
        if int(line.split(" ")[0]) >= agreed:
            raise LeftOut(f"the files differ from place {agreed} on: {line}")


def read_matches(program, hashes):
    """Each of these folders, in order, and its match or the reason why there is none. The hash of its files was made before. The
    program runs twice for all of them."""
    printings = [Printing(program, word, hashes) for word in ("card", "export")]
    for folder, files in hashes.items():
        try:
            yield folder, match_in(program, folder, files, *printings)
        except LeftOut as why:
            yield folder, str(why)
        except (ValueError, LookupError) as why:
            yield folder, f"it can't be read: {why!r}"
    for printing in printings:
        printing.end()


def match_in(program, folder, files, cards, exports):
    """The match of a folder, whose files are one record, with the deliveries adding up to the card."""
    if CONTROL.search(folder):
        raise LeftOut("a control character is in its name")
    frames = [printing.frame_of(folder) for printing in (cards, exports)]
    if frames[0]:
        must_be_one_record(program, folder, frames[0])
    for frame, printing in zip(frames, (cards, exports)):
        if not frame:
            raise LeftOut(printing.reason_of(folder))
    exported, card = json.loads(frames[1].text), Card(frames[0].text)
    must_have_own_names(exported["info"]["players"])
    try:
        compare(exported, card)
        match = match_of(exported, folder, files)
        add_innings(match, exported, card)
    except Wrong as why:
        raise LeftOut(f"the deliveries aren't those of the card: {why}") from None
    return match


def must_have_own_names(players):
    for team, names in players.items():
        for name in names:
            if names.count(name) > 1:
                raise LeftOut(f"two players of {team} are called {name}")


def match_of(exported, folder, files):
    """The row of the match, and its players."""
    info, ours = exported["info"], exported["yermudosh"]
    home, away = info["teams"]
    sheet = sheet_of(folder)
    result, winner, words = result_of(ruled(sheet, info["teams"]) or info.get("outcome", {}))
    row = dict(
        number=str(ours["match_number"]), home=home, away=away, title=sheet["title"], day=first_day(info), venue=of_kind(str, info.get("venue")),
        result=result, winner=winner, words=words, folder=folder, files=files,
    )
    match = Match(row)
    for team, names in info["players"].items():
        for number, name in enumerate(names, 1):
            match.add("players", team=team, player=name)
            match.add("appearances", team=team, player=name, number=number)
    return match


def sheet_of(folder):
    with open(os.path.join(folder, FILES[0]), "rb") as file:
        return tomllib.load(file)


def key_in(folder):
    """By what the match in a folder is known, by its sheet alone, or nothing where that is none."""
    try:
        sheet = sheet_of(folder)
        return str(sheet["number"]), str(sheet["home"]["name"]), str(sheet["away"]["name"])
    except (ValueError, LookupError, TypeError, OSError):
        return None


def ruled(sheet, teams):
    """The outcome that the league wrote into the sheet's [info], if any: it goes before that of the Laws."""
    outcome = (of_kind(dict, sheet.get("info")) or {}).get("outcome")
    if outcome is None:
        return None
    try:
        wants(OUTCOME(outcome), "it is no table")
        wants(outcome.get("winner") in teams or "result" in outcome, f"the winner is neither {teams[0]} nor {teams[1]}")
    except (Wrong, TypeError) as why:
        raise LeftOut(f"the outcome in the sheet's [info]: {why}") from None
    return outcome


def overs_of(exported, number):
    """How many overs an innings may have: by the sheet's [limits], or else by its [info]."""
    limits = exported["yermudosh"].get("limits", {}).get("overs")
    return limits[min(number, len(limits) - 1)] if limits else of_kind(int, exported["info"].get("overs"))


def first_day(info):
    days = of_kind(list, info.get("dates")) or [None]
    return of_kind(str, days[0])


def of_kind(kind, value):
    """A value of the sheet's [info], in which nothing is checked, where it is of this kind."""
    return value if type(value) is kind else None


def result_of(outcome):
    """The result's word, who has won, and the result in words."""
    if "winner" not in outcome:
        result = RESULTS.get(outcome.get("result"), "unfinished")
        return result, None, result
    by, winner, method = outcome.get("by", {}), outcome["winner"], outcome.get("method", PENALTY_RUNS)
    parts = ["an innings"] * ("innings" in by)
    parts += [f"{by[unit]} {unit[:-1] if by[unit] == 1 else unit}" for unit in ("runs", "wickets") if unit in by]
    parts += [method] * (method == PENALTY_RUNS and not parts)
    return "won", winner, f"{winner} won" + f" by {' and '.join(parts)}" * bool(parts) + f" ({method})" * (method != PENALTY_RUNS)


def add_innings(match, exported, card):
    """The rows of each innings."""
    penned, lines = balls_penned(exported), lines_of_innings(exported)
    for number, innings in enumerate(exported["innings"]):
        Innings(match, exported, number, penned[number], lines[number], card.innings[number]).add()


def lines_of_innings(exported):
    """The lines that stand, innings by innings."""
    lists = []
    for line in standing(exported["yermudosh"]["book"]):
        if line.startswith("innings "):
            lists.append([])
        elif lists:
            lists[-1].append(line.split(" "))
    return lists


class Innings:
    """One innings, as the export, the book's lines and the card have it."""

    def __init__(self, match, exported, number, penned, lines, card):
        innings, players = exported["innings"][number], exported["info"]["players"]
        self.match, self.card, self.lines, self.innings = match, card, lines, innings
        self.team = innings["team"]
        self.fielding = next(team for team in players if team != self.team)
        self.names = players[self.team]
        self.at = dict(innings=number + 1, team=self.team)
        self.most_overs = overs_of(exported, number)
        self.by_print = {name[:16].rstrip(): name for names in players.values() for name in names}
        self.deliveries = list(zip(deliveries_of(innings), penned, strict=True))
        # whether each counts in the over
        self.counted = [int(counts(*delivery)) for delivery in self.deliveries]

    def add(self):
        self.add_itself()
        self.add_deliveries()
        self.add_batters()
        self.add_bowlers()
        crease = Crease(self)
        crease.walk()
        self.add_dismissals(crease.leavers)
        for place, stand in enumerate(crease.stands, 1):
            self.match.add("stands", **self.at, place=place, **stand)

    def add_itself(self):
        byes, legbyes, wides, noballs, penalty = self.card.extras
        ended = next((words[1] for words in self.lines if words[0] == "end"), None)
        self.match.add(
            "innings", **self.at, fielding=self.fielding, runs=self.card.runs, wickets=self.card.wickets, overs=self.card.overs,
            balls=sum(self.counted), byes=byes, legbyes=legbyes, wides=wides, noballs=noballs,
            penalty=penalty, target=self.innings.get("target", {}).get("runs"), most_overs=self.most_overs, ended=ended,
        )

    def add_deliveries(self):
        places = [(over["over"], ball) for over in self.innings["overs"] for ball, _ in enumerate(over["deliveries"], 1)]
        numbered = enumerate(zip(places, self.deliveries, self.counted, strict=True), 1)
        self.match.add_rows("deliveries", DELIVERY, [self.delivery_row(number, *it) for number, it in numbered])

    def delivery_row(self, number, place, delivered, counted):
        delivery, words = delivered
        extras, runs = delivery.get("extras", {}), delivery["runs"]
        return (
            *self.at.values(), number, *place, self.fielding, delivery["batter"], delivery["non_striker"], delivery["bowler"], runs["batter"],
            *[extras.get(kind, 0) for kind in EXTRAS], runs["total"], boundary(words) or None, counted,
        )

    def add_batters(self):
        for place, (name, how, (runs, balls, fours, sixes)) in enumerate(self.card.batters, 1):
            self.match.add(
                "batters", **self.at, place=place, player=self.by_print[name], how=how, is_out=int(how not in ("not out", "retired not out")),
                runs=runs, balls=balls, fours=fours, sixes=sixes,
            )

    def add_bowlers(self):
        for place, (name, _, (maidens, runs, wickets, wides, noballs)) in enumerate(self.card.bowlers, 1):
            player = self.by_print[name]
            balls = sum(counted for (delivery, _), counted in zip(self.deliveries, self.counted) if delivery["bowler"] == player)
            self.match.add(
                "bowlers", innings=self.at["innings"], team=self.fielding, place=place, player=player,
                balls=balls, maidens=maidens, runs=runs, wickets=wickets, wides=wides, noballs=noballs,
            )

    def add_dismissals(self, leavers):
        """Those who were out, in order: who, how, and the number of the delivery before or at it."""
        told = {}
        for delivery, _ in self.deliveries:
            told.update({wicket["player_out"]: (wicket, delivery) for wicket in delivery.get("wickets", [])})
        for wicket, (player, kind, number) in enumerate(leavers, 1):
            score = self.card.falls[wicket - 1][0]
            found, delivery = told.get(player, ({"kind": kind}, {}))
            fielder = next(iter(found.get("fielders", [])), {})
            bowler = delivery.get("bowler") if found["kind"] in CREDITED else None
            self.match.add(
                "dismissals", **self.at, wicket=wicket, fielding=self.fielding, player_dismissed=player, wicket_type=found["kind"], bowler=bowler,
                fielder=None if "substitute" in fielder else fielder.get("name"), is_substitute=int("substitute" in fielder),
                score=score, delivery=number or None,
            )


class Crease:
    """Who is in, line by line: who left, and who stood together."""

    def __init__(self, innings):
        self.innings, self.crease, self.number = innings, [], 0
        # who was out, how (where it wasn't by a delivery), and how many deliveries had been bowled
        self.leavers, self.stands = [], []

    def walk(self):
        for words in self.innings.lines:
            if words[0] == "in":
                self.comes_in(self.innings.names[int(words[1]) - 1])
            elif words[0] == "ball":
                self.is_bowled(words)
            elif words[0] == "gone":
                self.leaves(words[1], self.innings.names[int(words[2]) - 1])
        card = self.innings.card
        wants([name for name, *_ in self.leavers] == [self.innings.by_print[name.rstrip()] for _, name in card.falls], "who was out")
        ends = [runs for runs, _ in card.falls]
        self.reckon(ends + [card.runs - self.innings.innings.get("penalty_runs", {}).get("post", 0)])

    def comes_in(self, name):
        self.crease.append(name)
        if len(self.crease) == 2:
            self.stand_together(*self.crease)

    def stand_together(self, first, second):
        self.stands.append(dict(wicket=len(self.leavers) + 1, first=first, second=second, runs=0, balls=0, is_unbroken=1))

    def is_bowled(self, words):
        delivery, _ = self.innings.deliveries[self.number]
        self.number += 1
        extras = delivery.get("extras", {})
        self.stands[-1]["runs"] += delivery["runs"]["total"] - extras.get("penalty", 0)
        self.stands[-1]["balls"] += "wides" not in extras
        if "out" in words:
            who = words[words.index("out") + 2]
            self.is_out(delivery["batter" if who == "striker" else "non_striker"], None)

    def leaves(self, how, name):
        if how == "retiredhurt":
            self.crease.remove(name)
        else:
            self.is_out(name, OUT_BETWEEN[how])

    def is_out(self, name, kind):
        if len(self.crease) < 2:
            # alone, or timed out
            pair = [*self.crease, *[name] * (name not in self.crease), None]
            self.stand_together(*pair[:2])
        self.stands[-1]["is_unbroken"] = 0
        self.crease = [other for other in self.crease if other != name]
        self.leavers.append((name, kind, self.number))

    def reckon(self, ends):
        """Runs stand by stand: those of a wicket add up to what the innings grew by until it fell, penalty runs too, which are
        the last stand's."""
        for wicket, (before, end) in enumerate(zip([0, *ends], ends), 1):
            stands = [stand for stand in self.stands if stand["wicket"] == wicket]
            if stands:
                stands[-1]["runs"] = end - before - sum(stand["runs"] for stand in stands[:-1])
