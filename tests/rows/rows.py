"""Reads rows: what the program is given and what it must write. README.md has the form of their texts."""
import os
import re
import shlex
import socket
import subprocess

HERE = os.path.dirname(os.path.realpath(__file__))
ESCAPE = re.compile(r"\\(?:x([0-9a-f]{2})|(.))", re.S)
ONE_BYTE = {"\\": b"\\", "t": b"\t", "r": b"\r"}
# What a row has once, beside its files.
PARTS = ("make", "input", "output", "error")


# Stands for the address by which others reach this machine; where it has none, for no line.
OWN = "this machine is at OWN\n"


def own_line():
    """What a program tells of that address: nothing is sent for it."""
    with socket.socket(socket.AF_INET, socket.SOCK_DGRAM) as it:
        try:
            it.connect(("192.0.2.1", 9))
        except OSError:
            return ""
        return OWN.replace("OWN", it.getsockname()[0])


class BadRow(Exception):
    """A text of rows is not in the form that README.md has."""


class Row:
    """One row. What it doesn't say is empty, and its status 0."""

    def __init__(self, subject, name):
        self.subject, self.name = subject, name
        self.words, self.status = [], 0
        self.make, self.input, self.output, self.error = None, b"", b"", b""
        self.files, self.left, self.votes = {}, {}, {}

    def part(self, words):
        """Where a part's bytes are kept, by the words of its line: a table and its key."""
        word, name = words[0], words[1] if len(words) > 1 else None
        if word in PARTS and name is None:
            return self.__dict__, word
        if word in ("file", "left", "votes") and name is not None:
            return {"file": self.files, "left": self.left, "votes": self.votes}[word], name
        raise BadRow(f"a row has no part '{' '.join(words)}'")

    def lay(self, folder):
        """Puts the row's files into a folder, and what its script makes. Returns the input and what must be written."""
        for name, data in self.files.items():
            put(f"{folder}/{name}", data)
        if self.make is None:
            return self.input, self.output
        made = subprocess.run(["sh"], cwd=folder, input=self.make, stdout=subprocess.PIPE, stderr=subprocess.STDOUT)
        if made.returncode:
            raise BadRow(f"its files could not be made: {made.stdout.decode(errors='replace')}")
        return taken(f"{folder}/input", self.input), taken(f"{folder}/output", self.output)


def put(path, data):
    os.makedirs(os.path.dirname(path), exist_ok=True)
    with open(path, "wb") as it:
        it.write(data)


def taken(path, default):
    """The bytes of a file that a script made, which is then gone."""
    if not os.path.exists(path):
        return default
    with open(path, "rb") as it:
        data = it.read()
    os.remove(path)
    return data


def unescaped(text):
    """The bytes of a text: `\\\\`, `\\t`, `\\r` and `\\xNN` are one byte, and a line that ends with `\\` goes on in the next."""
    data, at = b"", 0
    for found in ESCAPE.finditer(text):
        data += text[at : found.start()].encode()
        if found[1]:
            data += bytes.fromhex(found[1])
        elif found[2] in ONE_BYTE:
            data += ONE_BYTE[found[2]]
        elif found[2] != "\n":
            raise BadRow(f"there is no \\{found[2]}")
        at = found.end()
    return data + text[at:].encode()


def unhexed(text):
    """The bytes of a text in hexadecimal, in which xN is the byte before N times in all."""
    data = b""
    for it in text.split():
        data += data[-1:] * (int(it[1:]) - 1) if it.startswith("x") else bytes.fromhex(it)
    return data


def hexed(data):
    """The lines of a block in hexadecimal."""
    for at in range(0, len(data), 32):
        part = data[at : at + 32]
        yield f"| {part[:1].hex()} x{len(part)}" if len(part) > 2 and len(set(part)) == 1 else f"| {part.hex()}"


def bytes_of(lines, kind):
    """The bytes of the lines of a block."""
    for line in lines:
        if line != "|" and not line.startswith("| "):
            raise BadRow(f"a line of a block begins with '| ', and this one doesn't: {line!r}")
        if line != line.rstrip():
            raise BadRow(f"blanks at the end of a line are written \\x20, in a block that is 'escaped': {line!r}")
    text = "".join(f"{line[2:]}\n" for line in lines).replace(OWN, own_line())
    if kind == "escaped":
        return unescaped(text)
    return unhexed(text) if kind == "hex" else text.encode()


def text_of(data):
    """The kind and the lines of a block of these bytes."""
    try:
        text = data.decode()
    except UnicodeDecodeError:
        text = None
    lines = (text or "").split("\n")
    if text is not None and text[-1:] in ("", "\n") and all(it.isprintable() and it == it.rstrip() and len(it) < 1000 for it in lines):
        return "", [f"| {it}".rstrip() for it in lines[:-1]]
    if sum(32 <= it < 127 or it == 10 for it in data) < 0.7 * len(data):
        return "hex", list(hexed(data))
    return "escaped", escaped(data)


def escaped(data):
    """The lines of a block that is escaped."""
    lines, line = [], ""
    shown = data.decode(errors="surrogateescape")
    for at, it in enumerate(shown):
        if it == "\n":
            lines.append(line)
            line = ""
            continue
        if len(line) >= 120:
            lines.append(line + "\\")
            line = ""
        special = {"\\": "\\\\", "\t": "\\t", "\r": "\\r"}.get(it)
        if special is None and (not it.isprintable() or it == " " and shown[at + 1 : at + 2] in ("\n", "")):
            special = "".join(f"\\x{byte:02x}" for byte in it.encode(errors="surrogateescape"))
        line += special or it
    if line or not data.endswith(b"\n"):
        lines.append(line + "\\")
    return [f"| {it}" if it else "|" for it in lines]


class Reader:
    """Reads the text of a subject."""

    def __init__(self, subject):
        self.subject, self.rows = subject, {}

    def begin(self, name):
        if name in self.rows:
            raise BadRow(f"there are two rows {name}")
        self.row, self.has = Row(self.subject, name), set()
        self.rows[name] = self.row

    def once(self, part):
        """Notes that the row has this part."""
        if part in self.has:
            raise BadRow(f"it has '{part}' twice")
        self.has.add(part)

    def known(self, how, name, words):
        """The bytes of a file of files/, or of the same part of another row above."""
        if how == "is":
            with open(f"{HERE}/{name}", "rb") as it:
                return it.read()
        if name not in self.rows:
            raise BadRow(f"there is no row {name} above")
        table, key = self.rows[name].part(words)
        return table[key]

    def take(self, words, block):
        """Takes a part: the words of its line, and the lines below."""
        if words[0] == "status":
            self.once("status")
            self.row.status = int(words[1])
            return
        kind, how = "", None
        if words[-1] in ("escaped", "hex") and words[-2:-1] != ["file"]:
            kind = words.pop()
        elif len(words) > 2 and words[-2] == "is":
            *words, how, name = words
        elif len(words) > 3 and words[-3:-1] == ["as", "in"]:
            *words, how, _, name = words
        if how and block:
            raise BadRow("what is elsewhere has no lines here")
        table, key = self.row.part(words)
        self.once(" ".join(words))
        table[key] = self.known(how, name, words) if how else bytes_of(block, kind)

    def read(self, text):
        """The rows of a text."""
        lines, at, self.row = text.split("\n"), 0, None
        while at < len(lines):
            line, began = lines[at], at
            at += 1
            while at < len(lines) and lines[at].startswith("|"):
                at += 1
            try:
                self.line(line, lines[began + 1 : at])
            except (BadRow, ValueError, OSError, IndexError) as why:
                raise BadRow(f"{self.subject}.rows:{began + 1}: {why}") from why
        return list(self.rows.values())

    def line(self, line, block):
        """Takes a line that isn't of a block, and the block below."""
        if line.startswith("== "):
            self.begin(line[3:])
        elif line[:2] in ("--", "$ ") and self.row is None:
            raise BadRow("no row has begun")
        elif line.startswith("-- "):
            self.take(line[3:].split(" "), block)
            return
        elif line == "$ ground" or line.startswith("$ ground "):
            self.once("words")
            self.row.words = shlex.split(line[2:])[1:]
        elif line and not line.startswith("# "):
            raise BadRow(f"this is no line of a row: {line!r}")
        if block:
            raise BadRow("these lines belong to no part of the row")


def subjects():
    """The names of all subjects."""
    return sorted(it.removesuffix(".rows") for it in os.listdir(HERE) if it.endswith(".rows"))


def rows_of(subject):
    """The rows of a subject, as they stand in its text."""
    with open(f"{HERE}/{subject}.rows", encoding="utf-8", newline="") as it:
        return Reader(subject).read(it.read())


def row(subject, name):
    """A row by its name."""
    return next(it for it in rows_of(subject) if it.name == name)
