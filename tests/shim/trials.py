"""What is tried: lives in which a call fails, each followed by another, and programs whose calls are wrong."""
import errno, os, re, shutil, signal, tempfile
from lives import BOARD, BOOK, SHEET, TOOLS, Eager, OtherDesk, board, desk, has_book, vote
from plans import EIO, FULL, Plan, ends_of_board, ends_of_desk, ends_of_folder, ends_of_key, ends_of_words, only
from record import TOP, Call, Judge, Wrong, bytes_at, calls_in, stored_before_sent, votes_in
from words import A_MATCH, READING

AGREED = {(place, 0): line for place, line in enumerate(BOOK)}
DIFFERED = {**AGREED, (2, 1): BOOK[2]}
SHORT_BOOK = BOOK[:2]
SHORT_BOARD = "Alder 0 for 0\nOvers 0.0\nStriker Amin 0 (0)\nOther -\nTarget -\nResult -\n"
OLD = f"{TOP}/examples/old-a.votes"


class Ground:
    """A new folder for one life, and the record of its calls."""

    def __enter__(self):
        self.top = os.path.realpath(tempfile.mkdtemp())
        self.folder = f"{self.top}/ground"
        os.mkdir(self.folder)
        return self

    def __exit__(self, *_):
        shutil.rmtree(self.top)

    def file(self, name):
        return f"{self.folder}/{name}"

    def put(self, name, data):
        with open(self.file(name), "wb") as it:
            it.write(data)
        return self.file(name)

    def calls(self):
        return calls_in(f"{self.top}/record")

    def judge(self, letters, scorer=None, kept=(), is_stern=False):
        return Judge(self.folder, {it: self.file(f"{it}.votes") for it in letters}, scorer, kept, is_stern)

    def run(self, words, plan=None, given=b""):
        """Runs words that end by themselves, and answers their status and texts."""
        return TOOLS.run(words, self.folder, plan.text() if plan else "", plan.wrong if plan else "", given)


def expect(end, ends):
    if end not in ends and (end[0], None) not in ends:
        raise Wrong(f"it ended with {end}, and not with {' or '.join(map(str, ends))}")


def card_agrees(path, letter):
    """The program must open a file, or refuse it, as the other reader does. It answers the votes, or why not; `None`
    where there is no file."""
    data = bytes_at(path)
    if data is None:
        return None
    found = votes_in(data)
    status, _, error = TOOLS.run(["card", "--sheet", SHEET, "--from", path, "--kind", letter], os.path.dirname(path), log=None)
    if (status, error) != ((1, f"votes: {' '.join(found.split()[:2])}\n") if isinstance(found, str) else (0, "")):
        raise Wrong(f"card says {status} {error!r} of {os.path.basename(path)}, in which are {found}")
    return found


# ---- a desk ----


def begin(ground, begun, is_stern=False):
    """A judge and another desk, where desk A's file has these bytes before."""
    judge, other = ground.judge("a", "a", [ground.put("a.votes", begun)] if begun else [], is_stern), OtherDesk()
    for place, round_ in judge.handed["a"]:
        other.hear(place, round_)
    return judge, other


def look_at_desk(ground, judge, heard, seen=0):
    """Judges the calls since those that were seen, and that the record has all that left the desk. It answers all."""
    calls = ground.calls()
    judge.take(calls[seen:])
    judge.disk.compare(ground.file("a.votes"))
    missing = heard - set(judge.handed["a"])
    if missing:
        raise Wrong(f"the votes {missing} came, and aren't in the record")
    return calls


def go_on(ground, judge, other, seen):
    """Starts the same command again: the whole book must be agreed. Only a new file that was never whole may be refused:
    no vote was sent, and it is thrown away."""
    end, heard, _ = desk(ground.folder, other)
    if end[0] == 1 and end[2].startswith("votes: 4") and not judge.handed["a"] and not judge.was_greeted:
        os.remove(ground.file("a.votes"))
        judge, seen = ground.judge("a", "a"), len(ground.calls())
        end, heard, _ = desk(ground.folder, other)
    if (end[0], end[2]) != (0, "") or "3 agreed" not in end[1]:
        raise Wrong(f"the same command, started again, ended with {end}")
    look_at_desk(ground, judge, heard, seen)
    judge.whole("a", DIFFERED)


def fail_desk(plan, begun=None, is_stern=False):
    """A desk's life in which a call fails, and the next one's. It answers whether the call was met."""
    with Ground() as ground:
        judge, other = begin(ground, begun, is_stern)
        end, heard, at = desk(ground.folder, other, plan.text(), plan.wrong)
        calls = look_at_desk(ground, judge, heard)
        met = plan.met(calls)
        is_greeted = any(it.label == "stdout" and it.name == "write" for it in calls[:met])
        ends = ends_of_desk(plan, ground.file("a.votes"), at, is_greeted)
        expect((end[0], end[2]), ends if met is not None else [(0, "")])
        if end[0] == 0 and "3 agreed" not in end[1] and (plan.call, plan.label) != ("read", "stdin"):
            raise Wrong(f"it ended with {end}, before all was agreed")
        card_agrees(ground.file("a.votes"), "a")
        go_on(ground, judge, other, len(calls))
        return met is not None


def unreachable(count):
    """A desk to whose network nothing can be sent for a while: it tells where that begins, and where it ends."""
    with Ground() as ground:
        other = OtherDesk()
        end, _, _ = desk(ground.folder, other, Plan("sendto", "socket", count, errno.ENETUNREACH).text())
        gone, back = f"cannot send to {other.address()}\n", f"can send to {other.address()} again\n"
        times = end[2].count(back)
        if end[0] or end[2] not in ((gone + back) * times, (gone + back) * times + gone) or times < (1 if count else 2):
            raise Wrong(f"it ended with {end}")


def held_by_syncs():
    """A desk whose files are synced in 1.5 s each, while the other one goes on saying its vote: an entry takes 6 s. No time
    counts in which the desk itself was held."""
    with Ground() as ground:
        other = Eager()
        copy = ground.file("copy.votes")
        end, _, _ = desk(ground.folder, other, wrong="slow-sync", until=1, disturb=other.insist, copy=copy)
        if end[0] or end[2] or "0 agreed" not in end[1] or "heard" in end[1]:
            raise Wrong(f"it ended with {end}")


def replaced(wrong):
    """A desk at whose name another file stands with the same bytes must end, whatever numbers its file system gives."""
    with Ground() as ground:
        file, other, done = ground.file("a.votes"), OtherDesk(), []
        expect(desk(ground.folder, other, until=1)[0][::2], [(0, "")])

        def replace(_):
            if (1, 0) in other.cast and not done:
                done.append(shutil.copy(file, f"{file}.other"))
                os.replace(f"{file}.other", file)

        end, _, _ = desk(ground.folder, other, wrong=wrong, disturb=replace)
        lost = "cannot write\nits file was moved, deleted or replaced: put it back\n"
        if (end[0], end[2]) != (3, lost) or not done:
            raise Wrong(f"it ended with {end}")


def begun_file():
    """What a desk's file has after three entries, of which the last is agreed."""
    with Ground() as ground:
        end, _, _ = desk(ground.folder, OtherDesk(), until=3)
        expect((end[0], end[2]), [(0, "")])
        data = bytes_at(ground.file("a.votes"))
        if data is None or list(votes_in(data)) != [(0, 0), (1, 0), (2, 0), (2, 1)]:
            raise Wrong(f"a desk ended with {end}, and its file has {data}")
        return data


def recorded_desk(begun=None, plan=None, disturb=None):
    """A desk's life that goes well, judged. It answers the calls."""
    with Ground() as ground:
        judge, other = begin(ground, begun)
        plan = plan or only("")
        end, heard, _ = desk(ground.folder, other, plan.text(), plan.wrong, disturb=disturb)
        calls = look_at_desk(ground, judge, heard)
        expect((end[0], end[2]), [(0, "")])
        judge.whole("a", DIFFERED)
        card_agrees(ground.file("a.votes"), "a")
        sent = stored_before_sent(calls, ground.file("a.votes"), judge.kept)
        if sent != len(DIFFERED):
            raise Wrong(f"{sent} votes were sent, and not {len(DIFFERED)}")
        return calls


# ---- a match, a migration and a key ----


def match_words(ground):
    book = ground.put("book.txt", "".join(f"{line}\n" for line in SHORT_BOOK).encode())
    return ["match", "--sheet", SHEET, "--book", book, "--dir", ground.folder]


MATCH_VOTES = {(place, 0): line for place, line in enumerate(SHORT_BOOK)}


def fail_match(plan):
    """A match in which a call fails: what each desk sent is in its file, and both files are as they should be."""
    with Ground() as ground:
        words, judge = match_words(ground), ground.judge("ab")
        end = ground.run(words, plan)
        calls = ground.calls()
        judge.take(calls)
        met = plan.met(calls) is not None
        reads = {"sheet.toml": SHEET, "book.txt": ground.file("book.txt")}
        expect((end[0], end[2]), ends_of_words(plan, (0, ""), reads) if met else [(0, "")])
        if end[0] == 0 and end[1] != SHORT_BOARD:
            raise Wrong(f"it wrote {end[1]!r}, and not {SHORT_BOARD!r}")
        for letter in "ab":
            look_at_match(ground, judge, letter, end[0] == 0 or plan.label == "stdout" and plan.call == "write")
        return met


def look_at_match(ground, judge, letter, is_whole):
    """A desk's file after a match: the whole book, or the first votes of it, or a new file that was never whole."""
    judge.disk.compare(ground.file(f"{letter}.votes"))
    found = card_agrees(ground.file(f"{letter}.votes"), letter)
    if is_whole:
        judge.whole(letter, MATCH_VOTES)
    elif isinstance(found, str):
        if judge.handed[letter]:
            raise Wrong(f"{letter}.votes is refused: {found}")
    elif found and list(found.items()) != list(MATCH_VOTES.items())[: len(found)]:
        raise Wrong(f"{letter}.votes has {found}")


def migrate_words(ground):
    old = ground.put("old-a.votes", bytes_at(OLD))
    return ["migrate", "--sheet", SHEET, "--desk", "a", "--from", old, "--to", ground.file("a.votes")]


def fail_migration(plan):
    """A migration in which a call fails: the old file stays, the new one is whole or is refused, and the same command
    migrates when the new one was thrown away."""
    with Ground() as ground:
        words, judge, whole = migrate_words(ground), ground.judge("a"), votes_in(bytes_at(OLD))
        end = ground.run(words, plan)
        calls = ground.calls()
        judge.take(calls)
        met = plan.met(calls) is not None
        reads = {"sheet.toml": SHEET, "old-a.votes": ground.file("old-a.votes")}
        expect((end[0], end[2]), ends_of_words(plan, (0, ""), reads) if met else [(0, "")])
        judge.disk.compare(ground.file("a.votes"))
        found = card_agrees(ground.file("a.votes"), "a")
        if end[0] == 0 or plan.label == "stdout" and plan.call == "write":
            judge.whole("a", whole)
        elif found is not None and not isinstance(found, str) and found != whole:
            raise Wrong(f"it ended with {end}, and the new file is taken, with {found}")
        if bytes_at(ground.file("old-a.votes")) != bytes_at(OLD):
            raise Wrong("the old file was changed")
        if found is not None:
            os.remove(ground.file("a.votes"))
        if TOOLS.run(words, ground.folder, log=None) != (0, "migrated 6\n", ""):
            raise Wrong("the same command, started again, doesn't migrate")
        return met


def key_words(ground):
    return ["key", "--to", ground.file("key")]


def fail_key(plan):
    """A new key in whose making a call fails: the file has it, or isn't there and the fault is told."""
    with Ground() as ground:
        end = ground.run(key_words(ground), plan)
        met = plan.met(ground.calls()) is not None
        expect((end[0], end[2]), ends_of_key(plan, ground.file("key")) if met else [(0, "")])
        found = bytes_at(ground.file("key"))
        if found is not None if end[0] else found is None or not re.fullmatch(b"[0-9a-f]{64}\n", found):
            raise Wrong(f"it ended with {end}, and the file has {found}")
        return met


# ---- a board ----


def fail_board(plan, had=None):
    """A board's life in which a call fails, and the next one's. `had` is what its text and its state have before."""
    with Ground() as ground:
        if had:
            ground.put("board.txt", had[0])
            ground.put("board.json", had[1])
        end, at = board(ground.folder, plan.text(), plan.wrong)
        calls = ground.calls()
        met = plan.met(calls) is not None
        expect((end[0], end[2]), ends_of_board(plan, at) if met else [(None, "")])
        if end[0] is None:
            shows_board(ground, end)
        end, _ = board(ground.folder)
        expect((end[0], end[2]), [(None, "")])
        shows_board(ground, end)
        return met


def shows_board(ground, end):
    """The screen and the files must show the book."""
    shown = bytes_at(ground.file("board.txt"))
    if not end[1].endswith(BOARD) or shown != BOARD.encode():
        raise Wrong(f"the screen shows {end[1]!r}, and the file {shown!r}")
    if not has_book(ground.file("board.json")):
        raise Wrong("the board's state hasn't the book")


def recorded_board(had=None, disturb=None):
    """A board's life that goes well. It answers the calls."""
    with Ground() as ground:
        if had:
            ground.put("board.txt", had[0])
            ground.put("board.json", had[1])
        end, _ = board(ground.folder, disturb=disturb)
        expect((end[0], end[2]), [(None, "")])
        shows_board(ground, end)
        return ground.calls()


# ---- words that only read, and write to standard output ----

REFUSED = {
    "a file that isn't there": (["card", "--sheet", SHEET, "--from", "nowhere", "--kind", "book"], 3, "cannot read nowhere\n"),
    "a file that is no votes file": (["card", "--sheet", SHEET, "--from", SHEET, "--kind", "a"], 1, "votes: 41 Damaged\n"),
    "words that aren't understood": (["card"], 2, "words not understood\n"),
}


def fail_reading(word, plan):
    """A run in which a call fails: all of its text is there, or the fault is told."""
    words, given = READING[word]
    good = TOOLS.run(words, "/", given=given, log=None)
    with Ground() as ground:
        end = ground.run(words, plan, given=given)
        met = plan.met(ground.calls()) is not None
        reads = {"stdin": "-", **{os.path.basename(it): it for it in words if it.startswith("/")}}
        told = good[0], good[2]
        ends = ends_of_folder(plan, told, given.decode().rstrip("\n"), os.listdir(A_MATCH)) if "--each" in words else ends_of_words(plan, told, reads)
        expect((end[0], end[2]), ends if met else [told])
        if end[0] == good[0] and end[1] != good[1]:
            raise Wrong(f"it wrote {end[1]!r}, and not {good[1]!r}")
        return met


def full_output(word):
    """A device that is full, as standard output."""
    words, given = READING[word]
    with open("/dev/full", "wb") as full:
        expect(TOOLS.run(words, "/", given=given, log=None, out=full), [(3, None, "cannot write\n")])


def silent_error(name, how):
    """Where standard error fails, the status stays."""
    words, status, text = REFUSED[name]
    with Ground() as ground:
        expect(ground.run(words), [(status, "", text)])
        expect(ground.run(words, Plan("write", "stderr", 1, how)), [(status, "", "")])


# ---- processes that are stopped and go on ----


def stopped(what):
    """A desk or a board that is stopped and goes on, again and again, lives as ever."""

    def disturb(process):
        process.send_signal(signal.SIGSTOP)
        process.send_signal(signal.SIGCONT)

    for _ in range(3):
        {"desk": recorded_desk, "board": recorded_board}[what](disturb=disturb)


# ---- programs whose calls are wrong ----

ALWAYS = ("no-sync", "one-sync", "late-sync", "no-folder-sync", "half-offset")


def passed_over(call, label, count, how=EIO):
    """A program that passes over that a call failed."""
    return Plan(call, label, count, how, "swallow")


WRONGS = [
    *[(recorded_desk, None, only(wrong)) for wrong in ALWAYS],
    *[(recorded_desk, None, passed_over("write", "a.votes", n, how)) for n in (2, 6) for how in (EIO, FULL, "torn")],
    *[(recorded_desk, None, passed_over("write", "a.votes", n)) for n in (3, 7)],
    *[(recorded_desk, None, passed_over("fsync", "a.votes", n)) for n in (2, 3, 4, 7)],
    *[(trial, only(wrong)) for trial in (fail_match, fail_migration) for wrong in ("no-sync", "no-folder-sync", "half-offset")],
    *[(fail_match, passed_over("fsync", label, 2)) for label in ("a.votes", "b.votes")],
    (fail_migration, passed_over("fsync", "a.votes", 2)),
    *[(trial, passed_over("write", "stdout", 1)) for trial in (fail_match, fail_migration, fail_board)],
    (fail_desk, passed_over("write", "stdout", 2)),
    *[(fail_reading, word, passed_over("write", "stdout", 1)) for word in READING],
    (fail_board, passed_over("write", "board.txt.new", 1)),
    (fail_board, passed_over("write", "board.json.new", 1)),
]

# A write of which nobody is told that it failed: the program finds it by the length of its file, and ends as if it were told.
LOST_WRITES = [
    *[(fail_match, (passed_over("write", label, 2),)) for label in ("a.votes", "b.votes")],
    (fail_migration, (passed_over("write", "a.votes", 2),)),
]


def noticed(trial, *values):
    """What a program does whose calls are wrong must be found so."""
    try:
        trial(*values)
    except Wrong:
        return
    raise Wrong("it wasn't noticed")


def copied(begun, without):
    """The calls of a desk that begins on a file by copying it, or these without one: then it must be found so."""
    with Ground() as ground:
        name = ground.file("a.votes")
        judge, _ = begin(ground, begun)
        last = max(judge.handed["a"])
        steps = {
            "open": f"open a.votes.new 9 0 1 - new:{name}.new",
            "write": f"write a.votes.new {len(begun)} 0 1 0 {begun.hex()}",
            "sync": "fsync a.votes.new 0 0 1 - -",
            "rename": f"rename a.votes 0 0 - 1 {name}.new {name}",
            "folder": f"fsync ground 0 0 {os.stat(ground.folder).st_ino} - -",
            "send": f"sendto socket 64 0 - - {vote(1, *last, BOOK[last[0]]).hex()}",
        }
        if without == "last byte":
            steps["write"] = steps["write"][:-2]
        try:
            judge.take([Call(line) for step, line in steps.items() if step != without])
        except Wrong:
            if without is None:
                raise
        else:
            if without is not None:
                raise Wrong("it wasn't noticed")
