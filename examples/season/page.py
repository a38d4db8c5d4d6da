"""Writes the page of a season: its views as tables, in one file that loads nothing."""
import os
import re
from html import escape

HERE = os.path.dirname(os.path.realpath(__file__))
# what a heading says in short, and what it means
SHORT = {
    "matches": ("M", "matches"), "innings": ("I", "innings"), "not_out": ("NO", "not out"), "runs": ("R", "runs"),
    "highest": ("HS", "highest score, * not out"), "average": ("Avg", "average"), "balls": ("B", "balls"), "strike_rate": ("SR", "strike rate"),
    "hundreds": ("100", "hundreds"), "fifties": ("50", "fifties"), "ducks": ("0", "ducks"), "fours": ("4", "fours"), "sixes": ("6", "sixes"),
    "overs": ("O", "overs of six balls"), "maidens": ("M", "maidens"), "wickets": ("W", "wickets"), "economy": ("Econ", "runs an over"),
    "fives": ("5W", "innings with five wickets"), "wides": ("Wd", "runs of wides"), "noballs": ("Nb", "no-balls"),
    "played": ("P", "played"), "won": ("W", "won"), "lost": ("L", "lost"), "tied": ("T", "tied"), "drawn": ("D", "drawn or no result"),
    "points": ("Pts", "points"), "run_rate": ("NRR", "net run rate"), "dismissals": ("All", "dismissals"), "run_outs": ("Run outs", "run outs"),
    "partnership": ("Runs", "runs together, * unbroken"), "wicket": ("Wkt", "for which wicket"),
}
WORDS = {"team", "player", "batters", "day", "venue", "words", "scores", "folder", "why", "match"}
RATES = {"average", "strike_rate", "economy", "run_rate"}
LONG = {"why", "words", "scores", "match"}
# each part: its heading, what it is, and the question whose first column names a row
PARTS = [
    ("table", "Table", 'SELECT * FROM "table"'),
    ("results", "Matches",
     "SELECT title AS match, day, words, (SELECT group_concat(team || ' ' || runs || '/' || wickets, ', ') FROM innings WHERE match = matches.id) AS scores,"
     " venue FROM matches ORDER BY day, number, home"),
    ("batting", "Batting", "SELECT player, team, matches, innings, not_out, runs, highest, average, balls, strike_rate, hundreds, fifties, ducks, fours, sixes"
     " FROM batting"),
    ("bowling", "Bowling", "SELECT player, team, matches, overs, maidens, runs, wickets, best, average, economy, strike_rate, fives, wides, noballs"
     " FROM bowling"),
    ("fielding", "Fielding", "SELECT player, team, dismissals, catches, stumpings, run_outs FROM fielding"),
    ("partnerships", "The fifty highest partnerships", "SELECT batters, team, wicket, partnership, balls, title AS match, day FROM partnerships LIMIT 50"),
    ("left-out", "Left out", "SELECT folder, why FROM left_out ORDER BY folder"),
]
HEADINGS = {"words": "Result", "why": "Why", "best": "Best"}


def heading(column):
    """A column's heading, with what it is short for."""
    if column in SHORT:
        short, long = SHORT[column]
        text = f'<abbr title="{long}">{short}</abbr>'
    else:
        text = HEADINGS.get(column, column.capitalize())
    return f'<th scope="col" class="plain{" words" if column in WORDS else ""}">{text}</th>'


def shown(column, value):
    if value is None:
        return "-"
    return f"{value:.2f}" if column in RATES else f"{value:g}" if isinstance(value, float) else str(value)


def sorted_by(text):
    """By what a figure is sorted that isn't a plain number: `5/26` and `74*`."""
    best, unbroken = re.fullmatch(r"(\d+)/(\d+)", text), re.fullmatch(r"(\d+)\*", text)
    if best:
        return str(1000 * int(best[1]) - int(best[2]))
    return f"{unbroken[1]}.5" if unbroken else None


def cell(column, value, is_first):
    text = shown(column, value)
    name, kind = ("th", ' scope="row"') if is_first else ("td", "")
    if column in WORDS:
        kind += ' class="words long"' if column in LONG else ' class="words"'
    elif by := sorted_by(text):
        kind += f' data-value="{by}"'
    return f"<{name}{kind}>{escape(text)}</{name}>"


def section(season, part):
    """A part of the page, or nothing where it has no row."""
    key, title, question = part
    found = season.execute(question)
    columns = [it[0] for it in found.description]
    rows = ["<tr>" + "".join(cell(column, value, not n) for n, (column, value) in enumerate(zip(columns, row))) + "</tr>" for row in found]
    if not rows:
        return ""
    return (
        f'<section aria-labelledby="{key}"><h2 id="{key}">{title}</h2><div class="rows" role="region" aria-labelledby="{key}" tabindex="0"><table>\n'
        f"<thead><tr>{''.join(map(heading, columns))}</tr></thead>\n<tbody>\n" + "\n".join(rows) + "\n</tbody></table></div></section>"
    )


def summary(season):
    """How much the season has."""
    matches, finished, first, last = season.execute("SELECT count(*), sum(result <> 'unfinished'), min(day), max(day) FROM matches").fetchone()
    (left_out,) = season.execute("SELECT count(*) FROM left_out").fetchone()
    days = f", from {first} to {last}" if first and first != last else f", {first}" if first else ""
    told = f"{matches} matches, {finished or 0} of them with a result{days}."
    return escape(told + (f" {left_out} left out: see the end." if left_out else ""))


def page_of(season):
    """The page of a season's database."""
    with open(os.path.join(HERE, "page.html"), encoding="utf-8") as file:
        template = file.read()
    parts = [(part, section(season, part)) for part in PARTS]
    links = "".join(f'<li><a href="#{key}">{title}</a></li>' for (key, title, _), text in parts if text)
    filled = {"summary": summary(season), "links": links, "sections": "\n".join(text for _, text in parts if text)}
    return re.sub(r"\{\{(\w+)\}\}", lambda found: filled[found[1]], template)
