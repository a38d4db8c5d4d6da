"""Runs the cases of a part: functions that each get a new folder, and raise what is wrong. Each is a process of its own, which is ended
with all that it began once it took too long; they go one by one or side by side. A line a case, and one of all at the end."""
import os, pathlib, select, shutil, signal, sys, tempfile, time, traceback
from . import places
from .waiting import Wrong

LIMIT = 900
MEMORY = "/dev/shm"


def alone(case):
    """Says of a case that nothing goes beside it: it tells how long something took."""
    case.is_alone = True
    return case


def in_memory(*cases):
    """Says of cases that their folders are in memory, where there is room: they try nothing of a disk, and write many files."""
    for case in cases:
        case.is_in_memory = True
    return cases


def named(cases) -> dict:
    """Cases by their names: functions, or names with functions."""
    return dict(cases) if isinstance(cases, dict) else {it.__name__.replace("_", " "): it for it in cases}


def chosen(cases: dict, names: list[str]) -> dict:
    """Those that have one of these words in their name; all where there is no word."""
    words = [it.replace("_", " ") for it in names]
    return {name: it for name, it in cases.items() if not words or any(word in name for word in words)}


def told(case, folder: str) -> str:
    """What comes of a case, in one line or more: a letter, and what it says."""
    try:
        return f"+{case(folder) or ''}"
    except Wrong as why:
        return f"-{why}"
    except BaseException as why:
        where = traceback.extract_tb(why.__traceback__)[-3:]
        return f"-{type(why).__name__}: {why}; " + ", ".join(f"{os.path.basename(it.filename)}:{it.lineno}" for it in where)


class Run:
    """A case that goes on, as a process."""

    def __init__(self, name: str, case):
        is_in_memory = getattr(case, "is_in_memory", False) and os.access(MEMORY, os.W_OK)
        self.name, self.case, self.began, self.folder = name, case, time.monotonic(), tempfile.mkdtemp(dir=MEMORY if is_in_memory else None)
        self.is_alone = getattr(case, "is_alone", False)
        self.text, mine = b"", os.pipe()
        sys.stdout.flush()
        self.pid = os.fork()
        if self.pid == 0:
            self.live(*mine)
        os.close(mine[1])
        self.out = mine[0]

    def live(self, out: int, to: int):
        os.close(out)
        os.setsid()
        os.environ["TMPDIR"] = tempfile.tempdir = self.folder
        for number in (signal.SIGINT, signal.SIGTERM):
            signal.signal(number, signal.SIG_DFL)
        text, inner = "-it ended by itself", f"{self.folder}/case"
        try:
            # what runs as another user may look in there
            os.chmod(self.folder, 0o755)
            os.mkdir(inner)
            text = told(self.case, inner)
            sys.stdout.flush()
        finally:
            with os.fdopen(to, "w", errors="replace") as it:
                it.write(text)
            os._exit(0)

    def took(self) -> float:
        return time.monotonic() - self.began

    def take(self) -> bool:
        """Takes what came, and answers whether the case is over."""
        if self.took() > LIMIT:
            self.text = b"-it took more than %d s, and was ended" % LIMIT
            return True
        if not select.select([self.out], [], [], 0)[0]:
            return False
        more = os.read(self.out, 65536)
        self.text += more
        return not more

    def end(self) -> tuple[bool, str]:
        """Ends all that it began. It answers whether the case went well, and what it says."""
        try:
            os.killpg(self.pid, signal.SIGKILL)
        except ProcessLookupError:
            pass
        _, status = os.waitpid(self.pid, 0)
        os.close(self.out)
        shutil.rmtree(self.folder, ignore_errors=True)
        text = self.text.decode(errors="replace") or f"-it was ended by signal {os.WTERMSIG(status)}"
        return text[0] == "+", text[1:]


def run(part: str, cases: dict, jobs: int = 1) -> int:
    """Runs these cases, so many side by side, and answers how many are wrong."""
    began, wrong, going = time.monotonic(), 0, []
    left = [*sorted(cases, key=lambda it: getattr(cases[it], "is_alone", False))]
    try:
        while left or going:
            while left and len(going) < jobs and not any(it.is_alone for it in going):
                if going and getattr(cases[left[0]], "is_alone", False):
                    break
                name = left.pop(0)
                going.append(Run(name, cases[name]))
            select.select([it.out for it in going], [], [], 0.5)
            for it in [it for it in going if it.take()]:
                going.remove(it)
                took, (is_well, what) = it.took(), it.end()
                wrong += not is_well
                print(f"{part}: {it.name}: {'well' if is_well else 'WRONG'}{(', ' if is_well else ': ') + what if what else ''}, in {took:.1f} s", flush=True)
    finally:
        for it in going:
            it.end()
    print(f"{part}: {len(cases)} cases, {wrong} wrong, in {time.monotonic() - began:.1f} s", flush=True)
    return wrong


def options(words: list[str], jobs: int) -> tuple[bool, int, list[str]]:
    """Whether cases are only listed, how many go side by side, and the words behind that."""
    is_list = False
    while words[:1] and words[0].startswith("--"):
        option, *words = words
        if option == "--list":
            is_list = True
        elif option == "--jobs" and words and words[0].isdigit():
            jobs, words = max(1, int(words[0])), words[1:]
        else:
            raise SystemExit(f"{option}: it takes --list, --jobs N, a program and words in the names of cases")
    return is_list, jobs, words


def numbers(*usual: int) -> list[int]:
    """The numbers among a script's words behind its program, and the usual ones for those that lack."""
    found = [int(it) for it in options(sys.argv[1:], 1)[2][1:] if it.isdigit()]
    return found + list(usual[len(found) :])


def main(cases, jobs: int = 1, part: str | None = None):
    """What a script of tests does: `[--list] [--jobs N] [PROGRAM [NAME..]]`. It ends with status 0 where all is well."""
    part = part or pathlib.Path(sys.argv[0]).name
    is_list, jobs, words = options(sys.argv[1:], jobs)
    found = chosen(named(cases), [it for it in words[1:] if not it.isdigit()])
    places.use(words[0] if words else None)
    if is_list:
        print("".join(f"{name}\n" for name in found), end="")
        sys.exit(0)
    if not found:
        sys.exit(f"{part}: there is no such case")
    if not os.access(places.program(), os.X_OK):
        print(f"{part}: there is no program {places.program()}", file=sys.stderr)
        sys.exit(3)
    sys.exit(run(part, found, jobs) > 0)
