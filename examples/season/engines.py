#!/usr/bin/env python3
"""Hands the rows of a season's database to other engines. It needs Python 3.11 and nothing else.

usage: engines.py --postgresql SEASON.db | psql -q LEAGUE   tables, rows and views, for a new database of PostgreSQL
       engines.py --csv FOLDER SEASON.db                    FOLDER/TABLE.csv for each table: its columns' names, and a line a row

PostgreSQL gets tables.sql but for DIFFERENCES, all of it or nothing. In a .csv file each text is quoted, and what isn't there is nothing;
it is for engines, not for a spreadsheet, which runs a name that begins with `=`.
"""
import os
import pathlib
import re
import sqlite3
import sys

HERE = os.path.dirname(os.path.realpath(__file__))
# What PostgreSQL has in place of a part of tables.sql
DIFFERENCES = [
    # names are sorted by their letters' numbers, as by SQLite, and not by a country's rules
    (r"\bTEXT\b", 'TEXT COLLATE "C"'),
    # a number with a fraction is decimal, or it can't be rounded to places. So a net run rate of just a half may be rounded to the other side
    (r"\bREAL\b", "NUMERIC"),
    # the league's points are those of the season
    (r"INSERT INTO points [^;]*;\n", ""),
    # what a deletion takes along is a function
    (r"CREATE TRIGGER forgotten AFTER DELETE ON matches BEGIN", "CREATE FUNCTION forgotten() RETURNS trigger LANGUAGE plpgsql AS $$ BEGIN"),
    (r"\nEND;\n", "\n    RETURN NULL;\nEND $$;\nCREATE TRIGGER forgotten AFTER DELETE ON matches FOR EACH ROW EXECUTE FUNCTION forgotten();\n"),
]
# how a text and what isn't there are written, so that no text is taken for anything else
ESCAPED = [("'\\'", "'\\\\'"), ("char(9)", "'\\t'"), ("char(10)", "'\\n'"), ("char(13)", "'\\r'")]
QUOTED = [("char(34)", "char(34, 34)")]
AT_ONCE = 1000


def tables_of(season):
    """Each table with its columns, and whether each is a text."""
    for (table,) in season.execute("SELECT name FROM sqlite_master WHERE type = 'table' ORDER BY rowid").fetchall():
        yield table, [(name, kind == "TEXT") for _, name, kind, *_ in season.execute(f"PRAGMA table_info({table})")]


def replaced(column, signs):
    for old, new in signs:
        column = f"replace({column}, {old}, {new})"
    return column


def write_rows(season, table, cells, between, file):
    """Writes a table's rows, a line each, which SQLite puts together."""
    lines = season.execute(f"SELECT {f' || {between} || '.join(cells)} FROM {table} ORDER BY rowid")
    while some := lines.fetchmany(AT_ONCE):
        file.writelines(f"{line}\n" for (line,) in some)


def for_postgresql(season, file):
    """Writes what makes a new database."""
    with open(os.path.join(HERE, "tables.sql"), encoding="utf-8") as tables:
        text = tables.read()
    for old, new in DIFFERENCES:
        text, count = re.subn(old, lambda _: new, text)
        if not count:
            raise ValueError(f"tables.sql has no {old}")
    file.write(f"\\set ON_ERROR_STOP on\nSET client_encoding = 'UTF8';\nBEGIN;\n{text}")
    for table, columns in tables_of(season):
        file.write(f"COPY {table} FROM STDIN WITH (FREEZE);\n")
        cells = [f"coalesce({replaced(name, ESCAPED) if is_text else name}, '\\N')" for name, is_text in columns]
        write_rows(season, table, cells, "char(9)", file)
        file.write("\\.\n")
    file.write("COMMIT;\nANALYZE;\n")


def for_others(season, folder):
    """Writes a file of each table."""
    os.makedirs(folder, exist_ok=True)
    for table, columns in tables_of(season):
        with open(os.path.join(folder, f"{table}.csv"), "w", encoding="utf-8", newline="") as file:
            file.write(",".join(name for name, _ in columns) + "\n")
            quoted = [f"char(34) || {replaced(name, QUOTED)} || char(34)" if is_text else name for name, is_text in columns]
            write_rows(season, table, [f"coalesce({it}, '')" for it in quoted], "','", file)


def opened(path):
    """The database, which is only read."""
    if not os.path.exists(path):
        raise ValueError(f"there is no {path}")
    return sqlite3.connect(f"{pathlib.Path(path).absolute().as_uri()}?mode=ro", uri=True)


def main(words):
    if len(words) == 2 and words[0] == "--postgresql":
        sys.stdout.reconfigure(encoding="utf-8", newline="")
        for_postgresql(opened(words[1]), sys.stdout)
    elif len(words) == 3 and words[0] == "--csv":
        for_others(opened(words[2]), words[1])
    else:
        sys.exit(__doc__)


if __name__ == "__main__":
    try:
        main(sys.argv[1:])
    except BrokenPipeError:
        sys.exit("engines.py: who was to read it has ended")
    except (ValueError, OSError, sqlite3.Error) as why:
        sys.exit(f"engines.py: {why}")
