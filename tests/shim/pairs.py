"""What is tried of a desk whose votes have a copy: each of both files is looked at by a judge of its own, at each call, and
desks begin on both, and on each alone."""
from lives import OtherDesk, desk
from plans import EIO, FULL, ends_of_pair, only
from record import Wrong, bytes_at, stored_before_sent, votes_in
from trials import ALWAYS, DIFFERED, Ground, expect, passed_over

NAMES = ("a.votes", "copy.votes")


class Pair:
    """A desk's two files in a new folder, which have these bytes before, with a judge of each, and the other desk."""

    def __init__(self, ground, begun):
        self.ground, self.other = ground, OtherDesk()
        kept = [ground.put(name, begun) for name in NAMES] if begun else []
        self.judges = [ground.judge("a", "a", kept) for _ in NAMES]
        for judge, name in zip(self.judges, NAMES):
            judge.paths = {"a": ground.file(name)}
            if begun:
                judge.handed = {"a": dict(votes_in(begun))}
        for place, round_ in self.judges[0].handed["a"]:
            self.other.hear(place, round_)

    def live(self, plan):
        copy = self.ground.file("copy.votes")
        return desk(self.ground.folder, self.other, plan.text(), plan.wrong, copy=copy)

    def look(self, heard):
        """Judges all calls, for both files, and answers them."""
        calls = self.ground.calls()
        for judge in self.judges:
            judge.take(calls)
            judge.disk.compare(judge.paths["a"])
            missing = heard - set(judge.handed["a"])
            if missing:
                raise Wrong(f"the votes {missing} came, and aren't in the record")
        return calls


def in_turn(calls):
    """Behind the start each write and each sync goes to the copy, and then to the file."""
    greeted = next(at for at, it in enumerate(calls) if it.name == "write" and it.label == "stdout")
    made = [(it.name, it.label, it.data) for it in calls[greeted:] if it.name in ("write", "fsync") and it.label in NAMES]
    pairs = list(zip(made[::2], made[1::2]))
    if len(made) % 2 or any((one[1], two[1]) != NAMES[::-1] or one[::2] != two[::2] for one, two in pairs):
        raise Wrong(f"the calls don't go to the copy and then to the file: {made}")


def recorded_pair(begun=None, plan=None):
    """A life that goes well, judged. It answers the calls."""
    with Ground() as ground:
        pair = Pair(ground, begun)
        end, heard, _ = pair.live(plan or only(""))
        calls = pair.look(heard)
        expect((end[0], end[2]), [(0, "")])
        for judge in pair.judges:
            judge.whole("a", DIFFERED)
            sent = stored_before_sent(calls, judge.paths["a"], judge.kept)
            if sent != len(DIFFERED):
                raise Wrong(f"{sent} votes were sent, and not {len(DIFFERED)}")
        in_turn(calls)
        return calls


# which files there are, and whether the copy is named
WAYS = ((NAMES, True), (NAMES[:1], False), (NAMES[:1], True), (NAMES[1:], True))


def begins(found, other, names, is_named):
    """A desk that begins on these files must have the whole book agreed."""
    with Ground() as ground:
        for name in names:
            if found[name] is not None:
                ground.put(name, found[name])
        anew, copy = OtherDesk(), ground.file("copy.votes") if is_named else None
        anew.cast = dict(other.cast)
        end, _, _ = desk(ground.folder, anew, copy=copy)
        if end[0] or "3 agreed" not in end[1]:
            raise Wrong(f"a desk that began on {' and '.join(names)} ended with {end}")
        for name in NAMES if is_named else NAMES[:1]:
            if votes_in(bytes_at(ground.file(name))) != DIFFERED:
                raise Wrong(f"{name} has {votes_in(bytes_at(ground.file(name)))} in the end")


def begins_in_each_way(found, other, sent):
    """Of both files, and of each alone where the other is lost, a desk must find all that was sent, and go on. Where nothing
    was sent a file may be one that was never whole: it is thrown away."""
    found = dict(found)
    for name in NAMES:
        votes = votes_in(found[name] or b"")
        if sent and (isinstance(votes, str) or any(votes.get(at) != line for at, line in sent.items())):
            raise Wrong(f"{name} has {votes}, and not {sent}")
        if isinstance(votes, str):
            found[name] = None
    for names, is_named in WAYS:
        begins(found, other, names, is_named)


def fail_pair(plan, begun=None):
    """A life in which a call fails, and those behind it. It answers whether the call was met."""
    with Ground() as ground:
        pair = Pair(ground, begun)
        end, heard, at = pair.live(plan)
        calls = pair.look(heard)
        met = plan.met(calls)
        is_greeted = any(it.label == "stdout" and it.name == "write" for it in calls[:met])
        ends = ends_of_pair(plan, ground.file("a.votes"), ground.file("copy.votes"), at, is_greeted)
        expect((end[0], end[2]), ends if met is not None else [(0, "")])
        found = {name: bytes_at(ground.file(name)) for name in NAMES}
        begins_in_each_way(found, pair.other, pair.judges[0].handed["a"])
        return met is not None


def killed_pair(begun=None):
    """Both files as they are found where the desk is killed behind each of its calls."""
    with Ground() as ground:
        pair, states = Pair(ground, begun), set()
        pair.live(only(""))
        judge = pair.judges[0]
        for call in ground.calls():
            judge.take([call])
            files = [judge.disk.file_at(ground.file(name)) for name in NAMES]
            found = tuple(None if it is None else bytes(it.now) for it in files)
            sent = tuple(judge.handed["a"].items())
            if (found, sent) not in states:
                states.add((found, sent))
                other = OtherDesk()
                for at, _ in sent:
                    other.hear(*at)
                begins_in_each_way(dict(zip(NAMES, found)), other, dict(sent))
        if len(states) < 5:
            raise Wrong(f"the files were found in {len(states)} states alone")


WRONGS = [
    *[(recorded_pair, None, only(wrong)) for wrong in ALWAYS],
    *[(recorded_pair, None, passed_over("write", name, n, how)) for name in NAMES for n in (2, 3) for how in (EIO, FULL)],
    *[(recorded_pair, None, passed_over("fsync", name, n)) for name in NAMES for n in (2, 3)],
]
