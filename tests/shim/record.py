"""What a program's calls come to: reads the record that shim.c writes, and plays a disk that loses, keeps or spoils
whatever isn't synced. A vote that was handed out must be in each file that a power loss may leave, from then on."""
import errno, functools, importlib.util, os
from lib.waiting import Wrong

TOP = os.path.dirname(os.path.dirname(os.path.dirname(os.path.realpath(__file__))))
SHEET = f"{TOP}/examples/sheet.toml"
SPOILS = (0x00, 0xA5, 0xFF)


def example(name):
    """What was written from docs/FORMATS.md alone: the reader of votes files, and the seals of datagrams."""
    spec = importlib.util.spec_from_file_location(name, f"{TOP}/examples/{name}.py")
    module = importlib.util.module_from_spec(spec)
    spec.loader.exec_module(module)
    return module


READER = example("read_votes")
SEAL = example("sealing").Seal(SHEET)


@functools.lru_cache(maxsize=100_000)
def votes_in(data):
    """The votes of a file's bytes, a line for each place and round, or why they are refused."""
    try:
        return {(place, round_): line for place, round_, line in READER.votes(data)}
    except READER.Refused as why:
        return str(why)


class Call:
    """A line of the record."""

    def __init__(self, line):
        name, label, result, error, inode, offset, data = line.rstrip("\n").split(" ", 6)
        self.name, self.label, self.result, self.error = name, label, int(result), int(error)
        self.inode = None if inode == "-" else int(inode)
        self.offset = None if offset == "-" else int(offset)
        self.data = "" if data == "-" else data

    def bytes(self):
        return bytes.fromhex(self.data)

    def is_ok(self):
        return self.result >= 0

    def vote(self):
        """Of a datagram that is a vote: the desk's letter, place, round and line."""
        data = SEAL.opened(self.bytes()) if self.name == "sendto" else None
        if data is None or data[3] != 1:
            return None
        line = READER.entry(data[19:43])
        return "ab"[data[12] - 1], (READER.number(data, 13, 16), READER.number(data, 17, 18)), line


def calls_in(path):
    """The calls of a record, the oldest first."""
    with open(path, encoding="ascii", errors="replace") as it:
        return [Call(line) for line in it]


class File:
    """A file's bytes as they are read, as the last sync made them certain, and which may be any byte: those that were
    written since, and those whose sync failed, until they are written and synced again."""

    def __init__(self, data=b""):
        self.now, self.sure = bytearray(data), bytes(data)
        self.doubtful, self.stuck = set(), set()

    def write(self, at, data):
        if len(self.now) < at:
            self.doubtful.update(range(len(self.now), at))
            self.now.extend(bytes(at - len(self.now)))
        self.now[at : at + len(data)] = data
        self.doubtful.update(range(at, at + len(data)))
        self.stuck.difference_update(range(at, at + len(data)))

    def cut(self, length):
        self.doubtful.update(range(length, max(length, len(self.now))))
        del self.now[length:]

    def sync(self):
        """All is certain but what stuck, which is as it was."""
        sure = bytearray(self.now)
        for at in self.stuck:
            sure[at : at + 1] = self.sure[at : at + 1] or b"\0"
        self.sure, self.doubtful = bytes(sure), set()

    def fail_sync(self):
        """The system may hold such bytes as clean from now on: a further sync then does nothing for them."""
        self.stuck |= self.doubtful

    def images(self):
        """Some of the byte lists that a power loss may leave, the worst of them."""
        doubtful = sorted(self.doubtful | self.stuck)
        if not doubtful:
            return [bytes(self.now)]
        late = doubtful[len(doubtful) // 2 :]
        return [bytes(self.now), self.sure] + [self.spoilt(some, byte) for some in (doubtful, late) for byte in SPOILS]

    def spoilt(self, some, byte):
        """The bytes, where these are another one."""
        data = bytearray(self.now)
        for at in some:
            data[at : at + 1] = bytes([byte] * (at < len(data)))
        return bytes(data)


class Disk:
    """A folder's files. A name that was made, moved or taken away is certain only when the folder is synced. `is_stern`
    says whether a failed sync of a file leaves bytes that no further sync makes certain."""

    def __init__(self, folder, kept=(), is_stern=False):
        self.folder, self.is_stern, self.files, self.names = os.stat(folder).st_ino, is_stern, {}, {}
        for path in kept:
            with open(path, "rb") as it:
                inode = os.stat(path).st_ino
                self.files[inode], self.names[path] = File(it.read()), [inode]

    def take(self, call):
        """Goes on by a call of the record."""
        file = self.files.get(call.inode)
        if call.name == "open" and call.data.startswith("new:"):
            self.files[call.inode] = File()
            self.names[call.data[4:]] = self.names.get(call.data[4:], [None]) + [call.inode]
        elif call.name == "open" and call.data.startswith("empty:") and file:
            file.cut(0)
        elif call.name == "write" and file and call.data:
            file.write(call.offset, call.bytes())
        elif call.name == "ftruncate" and file and call.offset is not None:
            file.cut(call.offset)
        elif call.name == "fsync":
            self.sync(call, file)
        elif call.name in ("rename", "unlink") and call.offset:
            one, _, other = call.data.partition(" ")
            inode = self.names.get(one, [None])[-1]
            if other:
                self.names[other] = self.names.get(other, [None]) + [inode]
            self.names[one] = self.names.get(one, [None]) + [None]

    def sync(self, call, file):
        if file and call.is_ok():
            file.sync()
        elif file and self.is_stern and call.error != errno.EINTR:
            file.fail_sync()
        elif call.inode == self.folder and call.is_ok():
            self.names = {path: [inodes[-1]] for path, inodes in self.names.items()}

    def images(self, path):
        """Each bytes that may be found under a name, and `None` where nothing may be."""
        found = []
        for inode in self.names.get(path, [None]):
            found += [None] if inode is None else self.files[inode].images()
        return found

    def file_at(self, path):
        """The file that has a name now."""
        return self.files.get(self.names.get(path, [None])[-1])

    def compare(self, path):
        """The file must be as the record has it: no call went past the record."""
        file = self.file_at(path)
        if (None if file is None else bytes(file.now)) != bytes_at(path):
            raise Wrong(f"{path} isn't what the recorded calls make of it")


def bytes_at(path):
    try:
        with open(path, "rb") as it:
            return it.read()
    except FileNotFoundError:
        return None


class Judge:
    """Looks at a record, call by call. `paths` has each desk's votes file by its letter; `scorer` is the letter of the
    desk whose standard output it is; what files in `kept` have counts as sent before."""

    def __init__(self, folder, paths, scorer=None, kept=(), is_stern=False):
        self.disk, self.paths, self.scorer = Disk(folder, kept, is_stern), paths, scorer
        self.handed = {letter: dict(votes_in(bytes_at(path))) if path in kept else {} for letter, path in paths.items()}
        self.kept = {at for found in self.handed.values() for at in found}
        self.count, self.told, self.text, self.was_greeted = 0, set(), "", bool(kept)

    def take(self, calls):
        for call in calls:
            self.count += 1
            self.look_at_name(call)
            self.disk.take(call)
            self.note(call)
            if call.name in ("write", "fsync", "open", "rename", "unlink", "ftruncate", "sendto"):
                self.look(call)

    def note(self, call):
        vote = call.vote()
        if vote:
            letter, at, line = vote
            if letter in self.handed and self.handed[letter].setdefault(at, line) != line:
                raise Wrong(f"desk {letter} sent two votes for {at}: {self.handed[letter][at]!r}, {line!r}")
        elif call.name == "start":
            self.text = ""
        elif call.label == "stdout" and self.scorer and call.data:
            self.hear(call.bytes().decode())

    def hear(self, text):
        """What the scorer was told of a place's vote."""
        lines = (self.text + text).split("\n")
        self.text = lines.pop()
        for line in lines:
            place, _, what = line.partition(" ")
            what = what.partition(":")[0]
            if place.isdigit() and what in ("next", "pending", "agreed"):
                self.was_greeted = True
                if what != "next":
                    self.told.add(int(place))

    def look_at_name(self, call):
        """A file that takes the name of a votes file has its very bytes, and is synced. Before a vote is sent the folder
        is synced, so that the name is certain."""
        one, _, other = call.data.partition(" ")
        if call.name == "rename" and call.offset and other in self.paths.values():
            copy, old = (self.disk.file_at(path) for path in (one, other))
            if old is not None and (copy is None or copy.images() != [bytes(old.now)]):
                raise Wrong(f"{os.path.basename(other)} was replaced by a file that isn't its synced copy")
        if call.vote() and call.vote()[0] in self.paths:
            path = self.paths[call.vote()[0]]
            if len(self.disk.names.get(path, [])) != 1:
                raise Wrong(f"a vote was sent, and the folder of {os.path.basename(path)} wasn't synced before")

    def look(self, call):
        """Each vote that was handed out or told must be in whatever a power loss may leave."""
        for letter, path in self.paths.items():
            told = self.told if letter == self.scorer else set()
            if not (self.handed[letter] or told or (self.was_greeted and letter == self.scorer)):
                continue
            for image in self.disk.images(path):
                self.look_at(image, letter, told, f"after {call.name} of {call.label}, call {self.count}")

    def look_at(self, image, letter, told, when):
        if image is None:
            raise Wrong(f"desk {letter}'s file may not be found where the power goes {when}")
        found = votes_in(image)
        if isinstance(found, str):
            raise Wrong(f"desk {letter}'s file may be refused, {found}, where the power goes {when}")
        for at, line in self.handed[letter].items():
            if found.get(at) != line:
                raise Wrong(f"desk {letter}'s vote {at} {line!r} was sent, and isn't certain {when}")
        lost = told - {place for place, _ in found}
        if lost:
            raise Wrong(f"desk {letter}'s vote at place {min(lost)} was told as kept, and isn't certain {when}")

    def whole(self, letter, book):
        """At the end each image must have just these votes, by place and round."""
        for image in self.disk.images(self.paths[letter]):
            found = None if image is None else votes_in(image)
            if found != book:
                raise Wrong(f"{os.path.basename(self.paths[letter])} may have {found}, and not {book}")


def stored_before_sent(calls, path, kept=()):
    """The order, read off the record of a desk whose calls all went well: of each vote its record, a sync, its gate, a
    sync, and only then the first datagram that has it. `kept` has the places and rounds that were stored before."""
    made, seen = [], set(kept)
    for call in calls:
        vote = call.vote()
        if call.label == os.path.basename(path) and call.name == "write":
            made.append(call.bytes())
        elif call.label == os.path.basename(path) and call.name == "fsync":
            made.append(None)
        elif vote and vote[1] not in seen:
            seen.add(vote[1])
            kinds = ["sync" if it is None else "gate" if it == b"\xa5" else "record" for it in made[-4:]]
            if kinds != ["record", "sync", "gate", "sync"] or call.bytes()[19:43] not in made[-4]:
                raise Wrong(f"the vote {vote[1:]} was sent after {kinds}, and not after its record and gate, each synced")
    return len(seen)
