#!/usr/bin/env python3
"""Makes a season's database and its page of matches that Yermudosh kept. It needs Python 3.11 and nothing else.

usage: season.py [--ground PROGRAM] SEASON.db FOLDER..   reads the match in each folder: sheet.toml, a.votes and b.votes
       season.py --sql QUESTION SEASON.db                prints what a question in SQL gives; a change is kept, such as
                                                         DELETE FROM matches WHERE number = '202606031'

Begun again it adds what is new: a match is known by its number and its two sides, and replaced where its sheet or a votes
file has changed. It lists each folder that isn't taken, with the reason, and ends with status 1 where there is one. With no
folder, or after a change, it only writes the page: SEASON.html.
"""
import os
import sqlite3
import sys
from itertools import islice
from multiprocessing import Pipe, Process

sys.dont_write_bytecode = True
from page import page_of
from reading import LeftOut, hash_of, key_in, read_matches

HERE = os.path.dirname(os.path.realpath(__file__))
VERSION = 2
# by these a match is found again
INDEXES = ("CREATE INDEX IF NOT EXISTS by_files ON matches (files)", "CREATE INDEX IF NOT EXISTS by_folder ON matches (folder)")


class Refused(Exception):
    """Why nothing is done."""


def opened(path):
    """The database, with its tables."""
    if not os.path.exists(path) and os.path.splitext(path)[1] != ".db":
        raise Refused(f"a season's file ends with .db: {path}")
    season = sqlite3.connect(path)
    (version,) = season.execute("PRAGMA user_version").fetchone()
    if version == 0 and not season.execute("SELECT 1 FROM sqlite_master").fetchone():
        with open(os.path.join(HERE, "tables.sql"), encoding="utf-8") as tables:
            season.executescript(f"BEGIN; {tables.read()} PRAGMA user_version = {VERSION}; COMMIT;")
    elif version != VERSION:
        raise Refused(f"{path} is of another version of season.py: make it anew, under another name")
    return season


def read_some(program, hashes, results):
    """Sends the match or the reason of each folder, or the fault of this machine that ends it."""
    try:
        for found in read_matches(program, hashes):
            results.send(found)
    except OSError as why:
        results.send(why)


def begun(program, hashes):
    """Where to take what a process of its own finds in folders: it goes on as that is taken."""
    found, results = Pipe(duplex=False)
    Process(target=read_some, args=(program, hashes, results), daemon=True).start()
    results.close()
    return found


def read_each(program, hashes):
    """The match or the reason of each folder, in this order, by as many processes as there are processors. None of them is further
    than one match ahead, so memory stays as it is, however many there are."""
    folders = list(hashes)
    count = min(os.cpu_count(), len(folders))
    processes = [begun(program, {folder: hashes[folder] for folder in folders[at::count]}) for at in range(count)]
    for at, _ in enumerate(folders):
        try:
            found = processes[at % count].recv()
        except EOFError:
            raise Refused("a process that read matches was ended: begin again") from None
        if isinstance(found, OSError):
            raise found
        yield found


class Reading:
    """One reading of folders into a season."""

    def __init__(self, season):
        self.season, self.files, self.left_out = season, {}, {}
        self.sums = {"new": 0, "changed": 0, "as before": 0}

    def read(self, program, folders):
        for index in INDEXES:
            self.season.execute(index)
        self.hash(folders)
        alike = {}
        for folder in self.files:
            if not self.is_known(folder):
                alike.setdefault(key_in(folder) or folder, []).append(folder)
        found = read_each(program, {folder: self.files[folder] for listed in alike.values() for folder in listed})
        hashes = set(self.files.values())
        for listed in alike.values():
            self.take(islice(found, len(listed)), hashes)
        self.note_left_out(folders)

    def hash(self, folders):
        """Notes the folders that have a match's files, the same files once."""
        first = {}
        for folder in folders:
            try:
                files = hash_of(folder)
            except (LeftOut, OSError) as why:
                self.left_out[folder] = str(why)
                continue
            if files in first:
                self.left_out[folder] = f"the same files as in {first[files]}"
            first.setdefault(files, folder)
        self.files = {folder: files for files, folder in first.items()}

    def is_known(self, folder):
        """Whether a match of just these files is in the season. Its folder may be another now."""
        known = self.season.execute("UPDATE matches SET folder = ? WHERE files = ?", (folder, self.files[folder])).rowcount
        self.sums["as before"] += known
        return known > 0

    def take(self, found, hashes):
        """Puts a match in, in the place of what was known of it: the one of all folders with its key that can be taken. Where there are
        more, or what was known is among what is read, none is."""
        first, folders = None, []
        for folder, match in found:
            if isinstance(match, str):
                self.left_out[folder] = match
            else:
                first = first or match
                folders.append(folder)
        if not folders:
            return
        old = self.season.execute("SELECT id, folder, files FROM matches WHERE number = ? AND home = ? AND away = ?", first.key).fetchone()
        rivals = folders[:2] + ([old[1]] if old and old[2] in hashes else [])
        if len(rivals) > 1:
            for folder in folders:
                other = next(it for it in rivals if it != folder)
                self.left_out[folder] = f"the match of {other} with other files: give one of the two"
            return
        self.sums["changed" if old else "new"] += 1
        if old:
            self.season.execute("DELETE FROM matches WHERE id = ?", (old[0],))
        self.put(first)

    def put(self, match):
        self.insert("matches", tuple(match.row), [tuple(match.row.values())])
        (number,) = self.season.execute("SELECT last_insert_rowid()").fetchone()
        for (table, columns), rows in match.tables.items():
            if table == "players":
                self.insert(table, columns, rows)
            else:
                self.insert(table, ("match", *columns), [(number, *row) for row in rows])

    def insert(self, table, columns, rows):
        """Puts rows into a table. A player is known by side and name, and may be there already."""
        word = "INSERT OR IGNORE" if table == "players" else "INSERT"
        self.season.executemany(f"{word} INTO {table} ({', '.join(columns)}) VALUES ({', '.join('?' * len(columns))})", rows)

    def note_left_out(self, folders):
        """Notes what isn't taken; of a match that is in from before this is told too."""
        for folder in list(self.left_out):
            if self.season.execute("SELECT 1 FROM matches WHERE folder = ? AND files <> ?", (folder, self.files.get(folder, ""))).fetchone():
                self.left_out[folder] += " (the season has it as it was before)"
        self.season.execute("DELETE FROM left_out")
        for folder in folders:
            if folder in self.left_out:
                self.insert("left_out", ("folder", "why"), [(folder, self.left_out[folder])])
                print(f"{folder}: left out: {self.left_out[folder]}")
        print(", ".join(f"{count} {name}" for name, count in [*self.sums.items(), ("left out", len(self.left_out))]))


def write_page(season, path):
    """Writes the page whole, beside the database."""
    page = os.path.splitext(path)[0] + ".html"
    with open(page + ".new", "w", encoding="utf-8") as file:
        file.write(page_of(season))
    os.replace(page + ".new", page)


def ask(season, question):
    """Prints the rows of a question, a line each. A change that changes nothing is refused."""
    answer = season.execute(question)
    if answer.rowcount == 0:
        raise Refused("nothing is changed: there is no such row")
    for row in answer:
        print(" | ".join("-" if value is None else f"{value}" for value in row))


def program_of(words):
    """The program: the one that is named, or `ground` here, or that of this repository."""
    if words[:1] == ["--ground"] and len(words) > 1:
        return os.path.realpath(words[1]), words[2:]
    return next((os.path.realpath(path) for path in ("ground", f"{HERE}/../../ground") if os.path.exists(path)), "ground"), words


def main(words):
    if len(words) == 3 and words[0] == "--sql":
        path, folders = words[2], []
    else:
        program, rest = program_of(words)
        if not rest or rest[0].startswith("--"):
            sys.exit(__doc__)
        path, folders = rest[0], list(dict.fromkeys(os.path.normpath(folder) for folder in rest[1:]))
    if not folders and not os.path.exists(path):
        raise Refused(f"there is no {path}")
    season = opened(path)
    left_out = {}
    with season:
        if words[0] == "--sql":
            ask(season, words[1])
        elif folders:
            reading = Reading(season)
            reading.read(program, folders)
            left_out = reading.left_out
    write_page(season, path)
    return 1 if left_out else 0


if __name__ == "__main__":
    try:
        sys.exit(main(sys.argv[1:]))
    except (Refused, sqlite3.Error, OSError) as why:
        sys.exit(f"season.py: {why}")
