#!/usr/bin/env python3
"""Reads a book that `ground export` has printed, with Python's own json: strictly by the format of published ball-by-ball
archives, 1.1.0, with `yermudosh` beside it.

usage: read_export.py EXPORT CARD    checks every key and type, adds up innings, batters and bowlers from the deliveries,
                                     and compares them with the lines of `ground card`
       read_export.py --lines EXPORT prints the lines of the book, for `ground check` or `ground card`
       read_export.py --sheet EXPORT prints the match sheet, with the fingerprint of the one that was exported
"""
import datetime
import json
import re
import sys

KINDS = {
    "bowled", "caught", "caught and bowled", "lbw", "stumped", "run out", "hit wicket", "hit the ball twice",
    "obstructing the field", "timed out", "retired hurt", "retired out", "retired not out", "handled the ball",
}
# the kinds of who may leave between deliveries, and so needn't be a batter of the one that carries it
BETWEEN = {"timed out", "retired hurt", "retired out", "run out"}
# the kinds of which a bowler has credit
CREDITED = {"bowled", "caught", "caught and bowled", "lbw", "stumped", "hit wicket"}

# what stands behind the names of teams that have one
MARKS = (" (home)", " (away)")

# the lines of the card of an innings
HEAD_LINE = re.compile(r"(.*), innings \d+")
BATTER_LINE = re.compile(r"(.{16}) (.{38}) +(\d+) +(\d+) +(\d+) +(\d+)")
EXTRAS_LINE = re.compile(r"Extras \d+ \(b (\d+), lb (\d+), w (\d+), nb (\d+), p (\d+)\)")
TOTAL_LINE = re.compile(r"Total (\d+) for (\d+) \((\d+\.\d+) overs\)")
FALL_LINE = re.compile(r"Fall \d+-(\d+) (.*)")
BOWLING_LINE = re.compile(r".* bowling")
BOWLER_LINE = re.compile(r"(.{16}) +(\d+\.\d+) +(\d+) +(\d+) +(\d+) +(\d+) +(\d+)")
OVERS_NOT_OF_SIX = re.compile(r"Overs not of six (\d+)")


class Wrong(Exception):
    """What is read isn't of the format, or doesn't add up."""


def wants(holds, what):
    if not holds:
        raise Wrong(what)


def is_number(value):
    return isinstance(value, int) and not isinstance(value, bool) and value >= 0


def is_match_number(value):
    """A number, or past 2^53 its text."""
    text = str(value)
    return text.isdecimal() and isinstance(value, str if int(text) > 2**53 else int) and text == str(int(text))


def is_text(value):
    return isinstance(value, str) and value != ""


def is_true(value):
    return value is True


def is_list_of(test):
    return lambda value: isinstance(value, list) and all(test(item) for item in value)


def is_mapping_of(needed, others=None):
    """A mapping that has the needed keys and otherwise none but the others, each with a value that passes its test."""
    others = others or {}

    def test(value):
        if not isinstance(value, dict):
            return False
        for key, item in value.items():
            tests = needed.get(key) or others.get(key)
            wants(tests is not None, f"the key {key}")
            wants(tests(item), f"{key}: {json.dumps(item)}")
        for key in needed:
            wants(key in value, f"no {key}")
        return True

    return test


FIELDER = is_mapping_of({"name": is_text}, {"substitute": is_true})
WICKET = is_mapping_of({"player_out": is_text, "kind": lambda kind: kind in KINDS}, {"fielders": is_list_of(FIELDER)})
RUNS = is_mapping_of({"batter": is_number, "extras": is_number, "total": is_number}, {"non_boundary": is_true})
EXTRAS = is_mapping_of({}, dict.fromkeys(["wides", "noballs", "byes", "legbyes", "penalty"], is_number))
DELIVERY = is_mapping_of(
    {"batter": is_text, "bowler": is_text, "non_striker": is_text, "runs": RUNS},
    {"extras": EXTRAS, "wickets": lambda listed: listed != [] and is_list_of(WICKET)(listed)},
)
OVER = is_mapping_of({"over": is_number, "deliveries": lambda listed: listed != [] and is_list_of(DELIVERY)(listed)})
MISCOUNTED = is_mapping_of({"balls": is_number}, {"umpire": is_text})


def is_ball_number(value):
    """An over from 0, and a ball of it."""
    return isinstance(value, float) and value > 0


POWERPLAY = is_mapping_of({"from": is_ball_number, "to": is_ball_number, "type": lambda kind: kind in ("mandatory", "batting", "fielding")})
INNINGS = is_mapping_of(
    {"team": is_text, "overs": is_list_of(OVER)},
    {
        "penalty_runs": is_mapping_of({}, {"pre": is_number, "post": is_number}),
        "declared": is_true,
        "forfeited": is_true,
        "miscounted_overs": lambda overs: isinstance(overs, dict) and all(
            key.isdigit() and MISCOUNTED(value) for key, value in overs.items()
        ),
        "target": is_mapping_of({"runs": is_number}, {"overs": is_number}),
        "powerplays": lambda listed: listed != [] and is_list_of(POWERPLAY)(listed),
    },
)
OUTCOME = is_mapping_of(
    {},
    {
        "winner": is_text,
        "by": is_mapping_of({}, {"runs": is_number, "wickets": is_number, "innings": lambda count: count == 1}),
        "result": lambda word: word in ("draw", "tie", "no result"),
        "method": is_text,
    },
)


def is_players(value):
    return isinstance(value, dict) and all(is_list_of(is_text)(names) for names in value.values())


def is_date(value):
    """Year, month and day, as the format writes them: `2026-08-22`."""
    try:
        return isinstance(value, str) and datetime.date.fromisoformat(value).isoformat() == value
    except ValueError:
        return False


def is_one_of(*words):
    return lambda value: isinstance(value, str) and value in words


EVENT = is_mapping_of(
    {"name": is_text}, {"match_number": is_number, "group": lambda group: is_text(group) or is_number(group), "stage": is_text, "sub_name": is_text}
)
TOSS = is_mapping_of({}, {"winner": is_text, "decision": is_one_of("bat", "field"), "uncontested": is_true})
OFFICIALS = is_mapping_of({}, dict.fromkeys(["umpires", "tv_umpires", "reserve_umpires", "match_referees"], is_list_of(is_text)))
# what the sheet's table [info] may tell
TOLD = {
    "city": is_text,
    "dates": lambda dates: dates != [] and is_list_of(is_date)(dates),
    "event": EVENT,
    "gender": is_one_of("male", "female"),
    "match_type": is_one_of("Test", "ODI", "T20", "IT20", "ODM", "MDM"),
    "match_type_number": is_number,
    "missing": lambda missing: isinstance(missing, list),
    "officials": OFFICIALS,
    "overs": is_number,
    "player_of_match": is_list_of(is_text),
    "registry": is_mapping_of({"people": lambda people: isinstance(people, dict) and all(map(is_text, people.values()))}),
    "season": lambda season: is_text(season) or is_number(season),
    "supersubs": lambda subs: isinstance(subs, dict) and all(map(is_text, subs.values())),
    "team_type": is_one_of("club", "international"),
    "toss": TOSS,
    "venue": is_text,
}
INFO = is_mapping_of(
    {
        "teams": lambda names: len(names) == 2 and is_list_of(is_text)(names),
        "players": is_players,
        "balls_per_over": lambda count: count == 6,
    },
    {"outcome": OUTCOME, **TOLD},
)
META = is_mapping_of(
    {"data_version": lambda version: version == "1.1.0", "revision": lambda count: is_number(count) and count > 0}, {"created": is_date}
)
ENTRY = is_mapping_of({"place": is_number, "line": is_text, "corrected_by": is_list_of(is_number)})
FALL = is_mapping_of(
    {"innings": is_number, "wicket": is_number, "runs": is_number, "overs": is_text, "player": is_number, "player_out": is_text}
)
LIMITS = is_mapping_of(
    {}, {"overs": is_list_of(is_number), "overs_a_bowler": is_number, "free_hits": is_true, "powerplays": is_list_of(is_list_of(is_number))}
)
OURS = is_mapping_of(
    {
        "program": is_text, "match_number": is_match_number, "innings_a_side": lambda count: count in (1, 2), "falls": is_list_of(FALL),
        "book": is_list_of(ENTRY),
    },
    # (an outcome is as the sheet tells it)
    {"title": is_text, "limits": LIMITS, "outcome": lambda _: True},
)
MATCH = is_mapping_of({"meta": META, "info": INFO, "innings": is_list_of(INNINGS), "yermudosh": OURS})


def check_delivery(delivery, batting, fielding):
    """The sums of a delivery, and that each name is of its team."""
    runs, extras = delivery["runs"], delivery.get("extras", {})
    wants(runs["extras"] == sum(extras.values()), "the extras of a delivery")
    wants(runs["total"] == runs["batter"] + runs["extras"], "the total of a delivery")
    wants(all(extras.values()), "extras of 0")
    wants(not runs.get("non_boundary") or runs["batter"] in (4, 6), "non_boundary")
    wants(delivery["batter"] in batting and delivery["non_striker"] in batting, "a batter of the other team")
    wants(delivery["bowler"] in fielding, "a bowler of the other team")
    for wicket in delivery.get("wickets", []):
        wants(wicket["player_out"] in batting, "who is out")
        was_there = wicket["player_out"] in (delivery["batter"], delivery["non_striker"])
        wants(was_there or wicket["kind"] in BETWEEN, f"{wicket['kind']} of one who wasn't in")
        if wicket["kind"] == "caught and bowled":
            wants([fielder["name"] for fielder in wicket["fielders"]] == [delivery["bowler"]], "who caught and bowled")


def deliveries_of(innings):
    return [delivery for over in innings["overs"] for delivery in over["deliveries"]]


def added_up(innings):
    """The runs and the wickets of an innings, by its deliveries and its penalty runs."""
    listed = deliveries_of(innings)
    runs = sum(delivery["runs"]["total"] for delivery in listed) + sum(innings.get("penalty_runs", {}).values())
    wickets = [wicket for delivery in listed for wicket in delivery.get("wickets", [])]
    return runs, sum(wicket["kind"] != "retired hurt" for wicket in wickets)


def standing(book):
    """The lines that stand, in the order of play: each as its last correction has it, late ones behind the place that they name."""
    says, order, late = {}, [], {}
    for entry in book:
        place, line = entry["place"], entry["line"]
        word, *named = line.split(" ", 2)
        if word == "fix":
            says[int(named[0])] = named[1]
        elif word == "late":
            says[place] = named[1]
            late.setdefault(int(named[0]), []).append(place)
        else:
            says[place] = line
            order.append(place)
    places = [place for first in order for place in (first, *late.get(first, []))]
    return [says[place] for place in places if says[place] != "void"]


def balls_penned(match):
    """For each innings the lines of its deliveries, as words: they tell what a delivery of the format can't, whether it was a
    boundary for which more was run, and whether it was called dead."""
    penned = iter([line.split(" ") for line in standing(match["yermudosh"]["book"]) if line.startswith("ball ")])
    lists = [[next(penned, None) for _ in deliveries_of(innings)] for innings in match["innings"]]
    wants(next(penned, None) is None and all(None not in listed for listed in lists), "the deliveries of the book")
    return lists


def falls_penned(book):
    """For each innings the over and the ball of each fall, by the lines that stand."""
    innings, called, since = [], 0, 0
    for line in standing(book):
        word, *named = line.split(" ")
        if word == "innings":
            innings.append([])
            called = since = 0
        elif word == "over":
            called, since = called + 1, 0
        elif word == "ball":
            since += named[1] not in ("wide", "nb", "nbbye", "nbleg") and "dead" not in named
        if word == "ball" and "out" in named or word == "gone" and named[0] != "retiredhurt":
            innings[-1].append(f"{called}.{since}")
    return innings


def boundary(words):
    """Four or six off the bat, or 0, by a delivery's line."""
    is_bat = words[2] in ("bat", "nb")
    return 4 if is_bat and "four" in words else 6 if is_bat and "six" in words else 0


def counts(delivery, words):
    """Whether a delivery counts in the over."""
    return not {"wides", "noballs"} & set(delivery.get("extras", {})) and "dead" not in words


def batters_of(innings, penned):
    """Each batter's runs, balls, fours and sixes."""
    rows = {}
    for delivery, words in zip(deliveries_of(innings), penned, strict=True):
        row = rows.setdefault(delivery["batter"], [0, 0, 0, 0])
        row[0] += delivery["runs"]["batter"]
        row[1] += "wides" not in delivery.get("extras", {})
        row[2] += boundary(words) == 4
        row[3] += boundary(words) == 6
    return rows


def bowlers_of(innings):
    """Each bowler's balls, runs, wickets, wides and no-balls."""
    rows = {}
    for delivery in deliveries_of(innings):
        runs, extras = delivery["runs"], delivery.get("extras", {})
        row = rows.setdefault(delivery["bowler"], [0, 0, 0, 0, 0])
        row[0] += "wides" not in extras and "noballs" not in extras
        row[1] += runs["batter"] + extras.get("wides", 0) + extras.get("noballs", 0)
        row[2] += sum(wicket["kind"] in CREDITED for wicket in delivery.get("wickets", []))
        row[3] += extras.get("wides", 0)
        row[4] += extras.get("noballs", 0)
    return rows


def miscounted(innings, penned):
    """How many overs were miscounted, each with as many deliveries that count as it says."""
    penned, fair = iter(penned), {}
    for over in innings["overs"]:
        fair[str(over["over"])] = sum(counts(delivery, next(penned)) for delivery in over["deliveries"])
    listed = innings.get("miscounted_overs", {})
    for number, over in listed.items():
        wants(over["balls"] != 6, f"over {number} of six")
        wants(over["balls"] == fair.get(number), f"over {number}: {over} and {fair.get(number)} fair deliveries")
    return len(listed)


def figures(texts):
    return [int(text) for text in texts]


def taken(lines, form, most=None):
    """Takes the lines of this form from the front of the lines, and answers the groups of each."""
    found = []
    while lines and len(found) != most and (line := form.fullmatch(lines[0])):
        found.append(line.groups())
        del lines[0]
    return found


def taken_one(lines, form):
    found = taken(lines, form, 1)
    wants(found, f"a line of the card: {lines[:1]}")
    return found[0]


class CardInnings:
    """An innings as the card has it, taken from the front of its lines."""

    def __init__(self, lines):
        (self.team,) = taken_one(lines, HEAD_LINE)
        self.batters = [(name.rstrip(), how.rstrip(), figures(row)) for name, how, *row in taken(lines, BATTER_LINE)]
        self.extras = figures(taken_one(lines, EXTRAS_LINE))
        runs, wickets, self.overs = taken_one(lines, TOTAL_LINE)
        self.runs, self.wickets = int(runs), int(wickets)
        self.falls = [(int(runs), name) for runs, name in taken(lines, FALL_LINE, self.wickets)]
        taken_one(lines, BOWLING_LINE)
        self.bowlers = [(name.rstrip(), overs, figures(row)) for name, overs, *row in taken(lines, BOWLER_LINE)]
        self.miscounted = int(taken_one(lines, OVERS_NOT_OF_SIX)[0])


class Card:
    """What `ground card` prints: each innings, in lines and columns that no name can be taken for."""

    def __init__(self, text):
        lines, self.innings = text.split("\n"), []
        while len(lines) > 1 and HEAD_LINE.fullmatch(lines[0]) and (BATTER_LINE.fullmatch(lines[1]) or EXTRAS_LINE.fullmatch(lines[1])):
            self.innings.append(CardInnings(lines))


def compare_innings(innings, penned, card):
    """The first thing at which the deliveries of an innings and its card differ."""
    runs, wickets = added_up(innings)
    # an innings with no delivery has no place for a wicket
    found, printed = (runs, wickets if deliveries_of(innings) else card.wickets), (card.runs, card.wickets)
    wants(found == printed, f"{found} and {printed}")
    found = miscounted(innings, penned)
    wants(found == card.miscounted, f"{found} miscounted overs and {card.miscounted}")
    for delivery, words in zip(deliveries_of(innings), penned, strict=True):
        is_none = delivery["runs"]["batter"] in (4, 6) and boundary(words) != delivery["runs"]["batter"]
        wants(is_none == ("non_boundary" in delivery["runs"]), f"non_boundary of {' '.join(words)}")
    batters = {name: row for name, _, row in card.batters}
    for name, row in batters_of(innings, penned).items():
        printed = batters.get(name[:16].rstrip())
        wants(row == printed, f"{name} {row} and {printed}")
    bowlers = {name: row[1:] for name, _, row in card.bowlers}
    for name, row in bowlers_of(innings).items():
        printed = bowlers.get(name[:16].rstrip())
        wants(row[1:] == printed, f"{name} {row[1:]} and {printed}")


def compare_falls(match, card):
    """The first fall that isn't the card's, at the over and the ball of the book's lines."""
    players, found, penned = match["info"]["players"], [], falls_penned(match["yermudosh"]["book"])
    for number, (innings, printed, overs) in enumerate(zip(match["innings"], card.innings, penned, strict=True), 1):
        wants(len(overs) == len(printed.falls), f"{len(overs)} falls in the book and {len(printed.falls)} on the card")
        for wicket, ((runs, name), at) in enumerate(zip(printed.falls, overs), 1):
            found.append((number, wicket, runs, at, name, innings["team"]))
    told = [(fall["innings"], fall["wicket"], fall["runs"], fall["overs"], fall["player_out"]) for fall in match["yermudosh"]["falls"]]
    wants(told == [fall[:5] for fall in found], f"falls {told} and {found}")
    for fall, (*_, team) in zip(match["yermudosh"]["falls"], found):
        wants(players[team][fall["player"] - 1] == fall["player_out"], f"the player of {fall}")


def compare(match, card):
    """The first thing at which the deliveries and the card differ."""
    listed = match["innings"]
    wants(len(listed) == len(card.innings), "how many innings there are")
    compare_falls(match, card)
    for number, (innings, penned, printed) in enumerate(zip(listed, balls_penned(match), card.innings, strict=True)):
        try:
            compare_innings(innings, penned, printed)
        except Wrong as why:
            raise Wrong(f"innings {number}: {why}") from None


def check(match):
    wants(MATCH(match), "no mapping")
    players = match["info"]["players"]
    wants(list(players) == match["info"]["teams"], "the teams of the players")
    wants(match["info"].get("toss", {}).get("winner") in (None, *players), "who won the toss")
    for innings in match["innings"]:
        wants(innings["team"] in players, "the team of an innings")
        (fielding,) = [names for team, names in players.items() if team != innings["team"]]
        numbers = [over["over"] for over in innings["overs"]]
        wants(numbers == sorted(set(numbers)), "the numbers of the overs")
        for delivery in deliveries_of(innings):
            check_delivery(delivery, players[innings["team"]], fielding)


def sheet_of(match):
    """The match sheet of an export, as TOML. Teams of one name have their marks taken off."""
    info, own = match["info"], match["yermudosh"]
    names = list(info["teams"])
    if all(name.endswith(mark) for name, mark in zip(names, MARKS)):
        plain = [name.removesuffix(mark) for name, mark in zip(names, MARKS)]
        names = plain if plain[0] == plain[1] else names
    title = own["title"] if "title" in own else info["event"]["name"]
    lines = [f"title = {json.dumps(title)}", f"number = {own['match_number']}", f"innings = {own['innings_a_side']}"]
    for side, name, team in zip(("home", "away"), names, info["teams"]):
        lines += [f"[{side}]", f"name = {json.dumps(name)}", f"players = {json.dumps(info['players'][team])}"]
    if "limits" in own:
        lines += ["[limits]"] + [f"{key} = {json.dumps(value)}" for key, value in own["limits"].items()]
    return "".join(line + "\n" for line in lines)


def main(words):
    if len(words) == 2 and words[0] in ("--lines", "--sheet"):
        with open(words[1], encoding="utf-8") as file:
            match = json.load(file)
        lines = [entry["line"] + "\n" for entry in match["yermudosh"]["book"]]
        print(sheet_of(match) if words[0] == "--sheet" else "".join(lines), end="")
        return 0
    if len(words) != 2:
        print(__doc__, file=sys.stderr)
        return 2
    with open(words[0], encoding="utf-8") as file:
        match = json.load(file)
    with open(words[1], encoding="utf-8") as file:
        card = Card(file.read())
    try:
        check(match)
        compare(match, card)
    except Wrong as why:
        print(f"wrong: {why}")
        return 1
    for innings in match["innings"]:
        runs, wickets = added_up(innings)
        print(f"{innings['team']} {runs} for {wickets}")
    return 0


if __name__ == "__main__":
    sys.exit(main(sys.argv[1:]))
