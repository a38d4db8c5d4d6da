"""Where things are: the program that is tried, files, and scripts that are taken as modules."""
import importlib.machinery, importlib.util, json, os, subprocess, sys, tomllib
from . import TOP
from .waiting import SOON, expect

EXAMPLES = f"{TOP}/examples"
SHEET = f"{EXAMPLES}/sheet.toml"
START = f"{TOP}/tools/start"
LOOPBACK = "127.0.0.1"
BUILT = f"{TOP}/crates/ground/out/ground"
_tried = [BUILT]


def program() -> str:
    """The program that is tried."""
    return _tried[0]


def use(path: str | None) -> None:
    """Has this program be tried, or where none is named the one that was built last."""
    _tried[0] = os.path.realpath(path) if path else BUILT


def loaded(name: str, path: str):
    """A script of the repository, as a module. It is read once."""
    if name not in sys.modules:
        loader = importlib.machinery.SourceFileLoader(name, f"{TOP}/{path}")
        made = importlib.util.module_from_spec(importlib.util.spec_from_loader(name, loader))
        sys.modules[name] = made
        loader.exec_module(made)
    return sys.modules[name]


def content(path) -> str | None:
    """A file's text; nothing where there is none."""
    try:
        with open(path, encoding="utf-8", errors="surrogateescape") as it:
            return it.read()
    except (FileNotFoundError, NotADirectoryError):
        return None


def bytes_of(path) -> bytes | None:
    try:
        with open(path, "rb") as it:
            return it.read()
    except (FileNotFoundError, NotADirectoryError):
        return None


def put(path, data: str | bytes):
    """Writes a file, and answers its path."""
    with open(path, "wb") as it:
        it.write(data if isinstance(data, bytes) else data.encode(errors="surrogateescape"))
    return path


def written(path, lines):
    return put(path, "".join(f"{line}\n" for line in lines))


def value_in(path):
    """What a file of JSON has; nothing where there is none."""
    text = content(path)
    return None if text is None else json.loads(text)


def read_sheet(sheet):
    return tomllib.loads(content(sheet))


def changed_sheet(folder, old: str, new: str, name="other.toml"):
    """The examples' sheet with one thing changed."""
    return put(f"{folder}/{name}", content(SHEET).replace(old, new))


def same(path):
    """What stays the same of a file that nothing is done to: which one it is, its bytes and its mode."""
    if not os.path.exists(path):
        return None
    found = os.stat(path)
    return found.st_dev, found.st_ino, found.st_mode, found.st_mtime_ns, bytes_of(path)


def ran(words, given: str | None = None, **how):
    """Status, output and errors of words that end, with this as standard input."""
    keys = {"input": given} if given is not None else {"stdin": subprocess.DEVNULL}
    done = subprocess.run(words, **{**keys, "capture_output": True, "text": True, "timeout": 10 * SOON, **how})
    return done.returncode, done.stdout, done.stderr


def ground(*words, **how):
    """The same of the program with these words."""
    return ran([program(), *words], **how)


def printed(*words, **how) -> str:
    """What the program prints, which must end well."""
    status, output, errors = ground(*words, **how)
    expect(f"the status of {words}, which tells {errors!r}", status, 0)
    return output


def book_of(count: int) -> list[str]:
    """The first entries of the examples' innings."""
    return content(f"{EXAMPLES}/innings.txt").splitlines()[:count]


def match_of(overs: int) -> list[str]:
    """A match of so many overs a side: five bowlers, two of them at a time, each run and extra, and a wicket in every fifth over."""
    book = []
    for side in "home", "away":
        book += [f"innings {side}", "in 1", "in 2"]
        for over in range(overs):
            bowler = 7 + (over // 8 * 2 + over % 2) % 5
            last = ["bat 0 out bowled striker 0"] if over % 5 == 4 else ["bat 0 six"]
            book += [f"ball {bowler} {it}" for it in ["bat 0", "bat 1", "bat 0 four", "wide 0", "bat 2", "leg 1", *last]]
            book += [f"in {3 + over // 5}", "over"] if over % 5 == 4 else ["over"]
        book.append("end overs")
    return book


def long_book(count: int, runs=0) -> list[str]:
    """So many entries: overs of balls alike."""
    book = ["innings home", "in 1", "in 2"]
    for over in range(count // 7 + 1):
        book += 6 * [f"ball {7 + over % 2} bat {runs}"] + ["over"]
    return book[:count]
