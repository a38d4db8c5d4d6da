"""An archive for tests and tools: folders of many matches, the questions that are asked of its tables, and their answers by the JSON of
its matches alone."""
import json, os, random
from collections import Counter, defaultdict
from concurrent.futures import ProcessPoolExecutor
from functools import reduce
from . import places
from .places import loaded, put
from .votes import votes_file
import read_export, read_votes

OVERS, BOOKS, CLUBS = 40, 100, 40
NAMES = "Ash Bond Cole Desai East Flint Ghosh Hart Ives Joshi Knight Lowe".split()
SHEET = """title = "{home} v {away}"
number = {number}
innings = 1
[home]
name = "{home}"
players = {home_players}
[away]
name = "{away}"
players = {away_players}
[info]
dates = [{day}]
venue = "{home} Green"
overs = {overs}
"""


# ---- Folders of matches


def books(count, overs):
    """Books of matches that differ, of so many overs a side: a quarter of the wickets of the example season."""
    make = loaded("season_make", "examples/season/make")
    make.OVERS = overs
    return [make.book(throws, 0.25, overs) for throws in range(count)]


def code(line):
    """The 24 bytes of one of their lines, by docs/FORMATS.md."""
    word, *words = line.split(" ")
    numbers = [int(it) if it.isdigit() else it for it in words]
    if word == "ball":
        boundary = numbers[3] if numbers[3:4] in (["four"], ["six"]) else ""
        way, who, fielder = numbers[numbers.index("out") + 1 :][:3] if "out" in numbers else (None, None, 0)
        rest = [numbers[0], 1 + read_votes.KINDS.index(numbers[1]), numbers[2], 0, read_votes.BOUNDARIES.index(boundary), 0]
        rest += [1 + read_votes.WAYS.index(way), 1 + read_votes.WHO.index(who), fielder] if way else []
    else:
        rest = [1 + {"innings": read_votes.SIDES, "end": read_votes.ENDS}[word].index(it) if isinstance(it, str) else it for it in numbers]
    return bytes([1 + read_votes.TAGS.index(word), 0, 0, 0, 0, 0, *rest]).ljust(24, b"\0")


def sheet_of(number, overs):
    """The sheet of a match: two of the clubs, whose players stay, and a day."""
    clubs = dict(zip(("home", "away"), random.Random(number).sample(range(CLUBS), 2)))
    players = {f"{side}_players": json.dumps([f"{name} {club}" for name in NAMES[club % 2 :][:11]]) for side, club in clubs.items()}
    day = f"{2000 + number % 25}-{1 + number % 12:02}-{1 + number % 28:02}"
    return SHEET.format(number=number, day=day, overs=overs, **players, **{side: f"Club {club}" for side, club in clubs.items()})


def generate(folder, count, overs=OVERS):
    """So many matches in folders 1 .. of this one, with both desks' files; it answers these. There are so many books that differ."""
    slots = [[(place, 0, code(line)) for place, line in enumerate(lines)] for lines in books(min(BOOKS, count), overs)]
    votes = [[votes_file(it, desk) for desk in (1, 2)] for it in slots]
    for number in range(1, count + 1):
        os.makedirs(there := f"{folder}/{number}")
        put(f"{there}/sheet.toml", sheet_of(number, overs))
        for letter, file in zip("ab", votes[number % len(votes)]):
            put(f"{there}/{letter}.votes", file[:8] + number.to_bytes(8, "big") + file[16:])
    return [f"{folder}/{number}" for number in range(1, count + 1)]


# ---- What is asked. It is the same SQL for each engine.

HIGHEST = 20
QUESTIONS = {
    "a career's average": "SELECT team, player, innings, not_out, runs, average FROM batting ORDER BY team, player",
    "a bowler at a ground": """SELECT b.team, player, venue, sum(balls), sum(runs), sum(wickets) FROM bowlers b JOIN matches m ON m.id = b.match
        GROUP BY b.team, player, venue ORDER BY b.team, player, venue""",
    "partnerships": f"""SELECT s.team, wicket, first, second, runs, balls, number FROM stands s JOIN matches m ON m.id = s.match
        ORDER BY runs DESC, balls, number, innings, place LIMIT {HIGHEST}""",
    "last-wicket stands": f"""SELECT s.team, first, second, runs, balls, number FROM stands s JOIN matches m ON m.id = s.match
        WHERE wicket = 10 ORDER BY runs DESC, balls, number, innings LIMIT {HIGHEST}""",
    "maidens by over": """SELECT over, count(*) FROM (
            SELECT match, innings, over FROM deliveries GROUP BY match, innings, over
            HAVING sum(counts) = 6 AND count(DISTINCT bowler) = 1 AND sum(runs_off_bat + wides + noballs) = 0
        ) AS maidens GROUP BY over ORDER BY over""",
}


# ---- The same by the JSON of the matches


class Archive:
    """What the deliveries of matches come to. Two that are added have what both have."""

    def __init__(self):
        self.batting, self.bowling = defaultdict(lambda: [0, 0, 0]), defaultdict(lambda: [0, 0, 0])
        self.stands, self.last_stands, self.maidens = [], [], Counter()

    def __add__(self, other):
        for ours, theirs in ((self.batting, other.batting), (self.bowling, other.bowling)):
            for key, row in theirs.items():
                ours[key] = [x + y for x, y in zip(ours[key], row)]
        self.stands, self.last_stands = highest(self.stands + other.stands), highest(self.last_stands + other.last_stands)
        self.maidens += other.maidens
        return self

    def plain(self):
        """As another process can be sent it."""
        self.batting, self.bowling = dict(self.batting), dict(self.bowling)
        self.stands, self.last_stands = highest(self.stands), highest(self.last_stands)
        return self

    def take(self, exported):
        info, number = exported["info"], str(exported["yermudosh"]["match_number"])
        who = came_in(exported)
        for place, innings in enumerate(exported["innings"], 1):
            team = innings["team"]
            (fielding,) = set(info["teams"]) - {team}
            outs = self.take_deliveries(innings, team, (fielding, info["venue"]), (number, place))
            runs = Counter()
            for it in deliveries_of(innings):
                runs[it["batter"]] += it["runs"]["batter"]
            for player in who[place - 1]:
                row = self.batting[team, player]
                self.batting[team, player] = [row[0] + 1, row[1] + (player not in outs), row[2] + runs[player]]

    def take_deliveries(self, innings, team, where, of):
        """Takes bowlers, stands and maidens; it answers who was out."""
        pair, is_broken, outs = (), True, set()
        for over in innings["overs"]:
            self.maidens[over["over"]] += is_maiden(over["deliveries"])
        for it in deliveries_of(innings):
            extras, two = it.get("extras", {}), (it["batter"], it["non_striker"])
            if is_broken or set(two) != set(pair):
                # who was in before stands first
                pair, is_broken = sorted(two, key=lambda name: (name not in pair, name != two[0])), False
                stand = [team, len(outs) + 1, *pair, 0, 0, *of, len(self.stands)]
                self.stands.append(stand)
                self.last_stands += [stand] * (len(outs) == 9)
            stand[4] += it["runs"]["total"] - extras.get("penalty", 0)
            stand[5] += "wides" not in extras
            wickets = it.get("wickets", [])
            outs.update(wicket["player_out"] for wicket in wickets)
            is_broken = bool(wickets)
            row = self.bowling[where[0], it["bowler"], where[1]]
            credited = sum(wicket["kind"] in read_export.CREDITED for wicket in wickets)
            row[:] = row[0] + is_fair(it), row[1] + given(it), row[2] + credited
        return outs

    def answers(self):
        """By the questions' names, each row's cells."""
        return {
            "a career's average": [(*key, *row, hundredths(row[2], row[0] - row[1])) for key, row in sorted(self.batting.items())],
            "a bowler at a ground": [(*key, *row) for key, row in sorted(self.bowling.items())],
            "partnerships": [tuple(it[:7]) for it in highest(self.stands)],
            "last-wicket stands": [(it[0], *it[2:7]) for it in highest(self.last_stands)],
            "maidens by over": sorted((+self.maidens).items()),
        }


def came_in(exported):
    """The names of who came in, innings by innings, by the lines that stand."""
    found = []
    for line in read_export.standing(exported["yermudosh"]["book"]):
        word, *rest = line.split(" ")
        if word == "innings":
            found.append(set())
            names = exported["info"]["players"][exported["innings"][len(found) - 1]["team"]]
        elif word == "in":
            found[-1].add(names[int(rest[0]) - 1])
    return found


def deliveries_of(innings):
    return [it for over in innings["overs"] for it in over["deliveries"]]


def is_fair(delivery):
    return not delivery.get("extras", {}).keys() & {"wides", "noballs"}


def is_maiden(deliveries):
    """Whether these are six fair ones of one bowler, who gave nothing."""
    return sum(map(is_fair, deliveries)) == 6 and len({it["bowler"] for it in deliveries}) == 1 and not any(map(given, deliveries))


def highest(stands):
    return sorted(stands, key=lambda it: (-it[4], *it[5:]))[:HIGHEST]


def given(delivery):
    """The runs that count against the bowler."""
    extras = delivery.get("extras", {})
    return delivery["runs"]["batter"] + extras.get("wides", 0) + extras.get("noballs", 0)


def hundredths(runs, times):
    """An average of two places, halves up."""
    return (200 * runs + times) // (2 * times) / 100 if times else None


def archive_of(folders):
    """What the JSON of these matches comes to."""
    found = Archive()
    for it in folders:
        words = ("--sheet", f"{it}/sheet.toml", "--kind", "both", "--from", f"{it}/a.votes", "--with", f"{it}/b.votes")
        found.take(json.loads(places.printed("export", *words)))
    return found.plain()


def answers_by_json(folders):
    """The answers to all questions, by as many processes as there are processors."""
    with ProcessPoolExecutor() as processes:
        parts = processes.map(archive_of, [folders[at : at + 50] for at in range(0, len(folders), 50)])
        return reduce(lambda sum_, it: (sum_ + it), parts, Archive()).answers()
