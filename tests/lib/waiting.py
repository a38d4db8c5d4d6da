"""What must be so, and how long a test waits until it is. A limit only tells that something never comes: it is so long that no load of
the machine reaches it."""
import time

SOON = 60


class Wrong(Exception):
    """What happened isn't what must happen."""


def expect(what, found, wanted) -> None:
    if found != wanted:
        raise Wrong(f"{what}: {found!r}, and not {wanted!r}")


def wants(holds, what) -> None:
    if not holds:
        raise Wrong(what)


def wait_for(what, holds, limit: float = SOON, but=None, pause=0.005):
    """Waits until this holds, and answers what it came to. Where it never does, that is told, with what `but` answers then."""
    end = time.monotonic() + limit
    while not (found := holds()):
        if time.monotonic() > end:
            raise Wrong(f"{what} didn't come within {limit} s" + (f", but {but()}" if but else ""))
        time.sleep(pause)
    return found


def once_in(tries: int, what):
    """Does this again where it was wrong, so often in all: for what a load may hold up once."""
    for left in reversed(range(tries)):
        try:
            return what()
        except Wrong:
            if not left:
                raise
