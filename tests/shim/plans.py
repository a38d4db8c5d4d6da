"""Which calls fail and how, and how the program must end then: its status and what standard error is told."""
import errno, itertools, re
from lives import SHEET

EINTR, EIO, FULL = errno.EINTR, errno.EIO, errno.ENOSPC
WRITES = (EIO, FULL, EINTR, "short", "torn", "made")
HOWS = {
    "open": (EIO, errno.EACCES, EINTR),
    "close": (EIO,),
    "read": (EIO, EINTR, "short"),
    "write": WRITES,
    "fsync": (EIO, FULL, EINTR),
    "ftruncate": (EIO, FULL, EINTR),
    "lseek": (errno.EINVAL,),
    "statx": (EIO,),
    "fchmod": (EIO,),
    "flock": (errno.EWOULDBLOCK, errno.ENOLCK, EINTR),
    "realpath": (EIO,),
    "rename": (EIO, FULL, "made"),
    "unlink": (EIO,),
    "socket": (errno.EMFILE,),
    "bind": (errno.EADDRINUSE,),
    "setsockopt": (errno.ENOBUFS,),
    "getsockname": (errno.ENOBUFS,),
    "sendto": (errno.ENETUNREACH, errno.EAGAIN, EINTR),
    "recvfrom": (errno.ECONNREFUSED, EINTR),
    "poll": (errno.ENOMEM, EINTR),
    "fcntl": (errno.EMFILE,),
    "ioctl": (errno.ENOTTY,),
    "getentropy": (EIO, EINTR),
    "listen": (errno.EADDRINUSE,),
    "accept4": (errno.EMFILE, errno.ECONNABORTED, EINTR),
    "epoll_create1": (errno.EMFILE,),
    "epoll_ctl": (errno.ENOMEM,),
    "epoll_wait": (EINTR,),
    "send": (errno.ECONNRESET, errno.EAGAIN, EINTR, "short", "made"),
    "recv": (errno.ECONNRESET, EINTR, "short"),
    "shutdown": (errno.ENOTCONN,),
}
# Of what is called as often as time will have it, the first few.
AT_ANY_TIME = {("sendto", "socket"): 4, ("recvfrom", "socket"): 4, ("getsockname", "socket"): 4, ("read", "stdin"): 5,
               ("poll", "socket"): 4, ("poll", "stdin"): 4, ("poll", "stdout"): 4, ("poll", "stderr"): 2,
               ("epoll_wait", "page"): 4, ("accept4", "page"): 4, ("recv", "page"): 4, ("send", "page"): 4, ("close", "page"): 2}
STREAMS = ("stdin", "stdout", "stderr", "null")
HARMLESS = (EINTR, "short")
CANNOT_WRITE = (3, "cannot write\n")


class Told:
    """What standard error is told: any text of this pattern."""

    def __init__(self, pattern):
        self.pattern = pattern

    def __eq__(self, text):
        return isinstance(text, str) and re.fullmatch(self.pattern, text) is not None

    def __repr__(self):
        return self.pattern


def fault_at(pattern):
    """That a file can't be written, and why."""
    return f"cannot write: {pattern}(?:[.]unfinished|[.]new)?: .+\n"


def late(file):
    """How a desk ends that was greeted."""
    return 3, Told(fault_at(re.escape(file)) + "start the same command again\n|cannot write\nits file was moved, deleted or replaced: put it back\n")


class Plan:
    """The N-th such call fails so; 0: the first and each third one behind it do. `wrong` is how the program's calls are
    wrong, if they are."""

    def __init__(self, call, label, count, how, wrong=""):
        self.call, self.label, self.count, self.how, self.wrong = call, label, count, how, wrong

    def text(self):
        return f"{self.call},{self.label},{self.count},{self.how}"

    def __str__(self):
        which = f"{self.call} {self.count}" if self.count else f"each third {self.call}"
        fails = f"{which} of {self.label} fails by {errno.errorcode.get(self.how, self.how)}"
        return f"{fails}, {self.wrong}" if self.wrong else fails

    def met(self, calls):
        """The index of the first call that failed, if there was one."""
        found = [at for at, it in enumerate(calls) if (it.name, it.label) == (self.call, self.label)]
        return found[max(self.count, 1) - 1] if len(found) >= max(self.count, 1) else None

    def is_traffic(self):
        """Whether a datagram is lost."""
        return self.label == "socket" and self.call in ("sendto", "recvfrom", "getsockname")


    def is_lost_sync(self):
        """Whether a file's sync fails, so that what was written before may be lost however often it is synced."""
        return self.call == "fsync" and self.label.startswith("a.votes") and self.how != EINTR


def only(wrong):
    """No call fails, but the program's are wrong so."""
    return Plan("none", "-", 1, 0, wrong)


def plans(calls, more=()):
    """A plan for each of these calls, and each way in which it can fail; of some more than the first few."""
    counts, most = {}, {**AT_ANY_TIME, **dict(more)}
    for call in calls:
        at = call.name, call.label
        counts[at] = min(counts.get(at, 0) + 1, most.get(at, 1000))
    found = []
    for (name, label), count in counts.items():
        hows = HOWS.get(name, ()) + (errno.EPIPE,) * (label == "stdout" and name == "write")
        found += [Plan(name, label, n, how) for n, how in itertools.product(range(1, count + 1), hows)]
        found += [Plan(name, label, 0, EINTR)] * (EINTR in hows)
    return found


def cannot_read(path):
    return 3, f"cannot read {path}\n"


def goes_on(plan):
    """Whether nothing changes where this fails. A failed `close` has nothing to lose: all was synced before, or read. A
    stream may have no place, and no copy. After a wait that fails, what is there is taken. A call that a signal interrupted
    is made again, and so is the rest of a short one."""
    if plan.call in ("close", "fcntl", "poll") or plan.call == "lseek" and plan.label in STREAMS:
        return True
    return plan.how in HARMLESS


def ends_of_desk(plan, file, at, is_greeted):
    """The ends that a desk may have where this fails: its status and standard error. `None` stands for any text."""
    if plan.is_traffic() or plan.label == "stderr":
        return [(0, None)]
    if plan.call == "read" and plan.how == EINTR and plan.label == "sheet.toml":
        return [(0, ""), cannot_read(SHEET)]
    if plan.label in ("stdin", "null") and plan.call != "close" and plan.how not in HARMLESS:
        return [cannot_read("-")] if (plan.call, plan.label) == ("read", "stdin") else [(0, ""), cannot_read("-")]
    if goes_on(plan):
        return [(0, "")]
    if plan.label == "sheet.toml":
        return [cannot_read(SHEET)]
    if plan.label == "socket":
        return [(3, f"cannot listen at {at}\n")]
    if plan.label == "stdout":
        return [CANNOT_WRITE]
    return [late(file)] if is_greeted else [(3, Told(fault_at(re.escape(file)))), cannot_read(file)]


def ends_of_pair(plan, file, copy, at, is_greeted):
    """The same of a desk whose votes have a copy. That both are on one disk isn't known where that can't be asked."""
    unknown = [(0, "")] if plan.call == "statx" and not is_greeted else []
    if not plan.label.startswith("copy.votes") or goes_on(plan):
        return ends_of_desk(plan, file, at, is_greeted) + unknown
    told = fault_at(re.escape(copy))
    if is_greeted or plan.label == "copy.votes.unfinished":
        return [(3, Told(f"{told}this is the copy: to go on without it, start the same command without --copy\n"))]
    return [(3, Told(f"{told}(?:this is the copy: .+\n)?")), cannot_read(copy), *unknown]


def ends_of_board(plan, at):
    """The same of a board, which has no status where it goes on: at its start a file that can't be written ends it, and later
    that is told once."""
    told = Told(fault_at(".*/board[.](?:txt|json)"))
    of_files = [(None, told), (3, told)]
    if plan.is_traffic() or plan.label == "stderr":
        return [(None, None)]
    if plan.call == "read" and plan.how == EINTR:
        return [(None, ""), cannot_read(SHEET), *of_files]
    if goes_on(plan):
        return [(None, "")]
    if plan.label == "sheet.toml":
        return [cannot_read(SHEET)] if plan.call in ("open", "read") else [(None, "")]
    if plan.label == "socket":
        return [(3, f"cannot listen at {at}\n")]
    if plan.label == "stdout":
        return [CANNOT_WRITE]
    return [*of_files, (None, "")] if plan.call in ("flock", "statx") else of_files


def ends_of_words(plan, good, reads):
    """The same of a match, a migration or a run that only reads. `good` is how it ends where nothing fails, `reads` has
    the paths of the files that it reads by their labels."""
    if plan.call == "read" and plan.how == EINTR:
        return [good, cannot_read(reads.get(plan.label, "-"))]
    if goes_on(plan) or plan.is_traffic():
        return [good]
    if plan.label == "old-a.votes":
        return [cannot_read(reads[plan.label]), CANNOT_WRITE]
    if plan.label in reads:
        return [cannot_read(reads[plan.label])]
    return [good, CANNOT_WRITE] if plan.call == "statx" or plan.label == "null" else [CANNOT_WRITE]


def ends_of_folder(plan, good, folder, names):
    """The same of a run over the match of a folder, with files of these names: one that can't be read is told with its folder, and the run goes on."""
    if plan.label not in names:
        return ends_of_words(plan, good, {"stdin": "-"})
    told = 1, f"{folder}: cannot read {folder}/{plan.label}\n"
    if plan.call == "read" and plan.how == EINTR:
        return [good, told]
    return [good] if goes_on(plan) else [told]


def ends_of_key(plan, file):
    """The same of a new key. That a signal interrupts what asks for randomness is told as any fault: it is asked once. Where it isn't told
    whether the path is a folder, a file is made."""
    told = 3, Told(fault_at(re.escape(file)))
    if plan.call == "getentropy":
        return [told]
    if goes_on(plan) or (plan.call, plan.label) == ("statx", "key"):
        return [(0, "")]
    return [told] if plan.label == "key" else ends_of_words(plan, (0, ""), {})
