"""What a system tells of a process: whether it waits, for what, and what it took."""
import os, re, signal, time
from .places import bytes_of, content
from .waiting import SOON, Wrong, wait_for

# poll, select, pselect6, epoll_wait, epoll_pwait and ppoll
WAITS = {"7", "23", "270", "232", "281", "271"}


def state(pid: int) -> str:
    """A letter: R for one that runs, Z for one that has ended, and so on; nothing where there is none."""
    found = bytes_of(f"/proc/{pid}/stat")
    return found.rpartition(b")")[2].split()[0].decode() if found else ""


def has_ended(pid: int) -> bool:
    """Whether a process has, be it that nobody has asked for its status yet."""
    try:
        return state(pid) in ("", "Z", "X")
    except ProcessLookupError:
        return True


def halt(pid: int) -> None:
    """Stops a process, and returns once it is: the signal alone leaves it time for the call that it is in."""
    os.kill(pid, signal.SIGSTOP)
    wait_for("a process that is stopped", lambda: state(pid) in ("T", "") or has_ended(pid))


def is_waiting(pid: int) -> bool:
    """Whether it waits for whatever comes."""
    try:
        return (content(f"/proc/{pid}/syscall") or "").split(" ")[0] in WAITS
    except ProcessLookupError:
        return False
    except PermissionError:
        return state(pid) == "S"


def turns(pid: int) -> int:
    """How often it has waited."""
    return int(re.search(r"^voluntary_ctxt_switches:\s+(\d+)", content(f"/proc/{pid}/status") or "", re.M)[1])


def sockets_of(pid: int) -> list[list[str]]:
    """The lines of the system's table for its sockets of datagrams."""
    inodes = set()
    for it in os.listdir(f"/proc/{pid}/fd"):
        try:
            inodes.add(os.readlink(f"/proc/{pid}/fd/{it}"))
        except FileNotFoundError:
            pass
    lines = [line.split() for line in content(f"/proc/{pid}/net/udp").splitlines()[1:]]
    return [line for line in lines if f"socket:[{line[9]}]" in inodes]


def ports_of(pid: int) -> list[int]:
    return [int(line[1].split(":")[1], 16) for line in sockets_of(pid)]


def unread(pid: int) -> int:
    """How many bytes of datagrams came that it hasn't read."""
    return sum(int(line[4].split(":")[1], 16) for line in sockets_of(pid))


def rest(*pids: int, limit: float = SOON) -> None:
    """Waits until each waits for whatever comes: it has told all that there was to tell."""
    for pid in pids:
        wait_for("a process that waits", lambda: has_ended(pid) or is_waiting(pid), limit, lambda: state(pid), pause=0.0005)


def settle(*pids: int, limit: float = SOON) -> None:
    """Waits until each has taken all datagrams that came, and waits for more: what one sent another is taken then."""
    end, quiet = time.monotonic() + limit, 0
    while quiet < 3:
        if time.monotonic() > end:
            raise Wrong(f"processes {pids} never came to rest")
        living = [pid for pid in pids if not has_ended(pid)]
        before = [turns(pid) for pid in living]
        time.sleep(0.005)
        try:
            rests = all(is_waiting(pid) and not unread(pid) for pid in living) and before == [turns(pid) for pid in living]
        except (OSError, TypeError, AttributeError):
            rests = False
        quiet = quiet + 1 if rests else 0


def goes_on(pid: int, count: int, what="a process that goes on", meanwhile=lambda: None) -> None:
    """Waits until it has waited so often more: for what must not happen in a while that is counted by its own turns."""
    begun = turns(pid)
    wait_for(what, lambda: (meanwhile(), turns(pid) >= begun + count)[1], but=lambda: f"{turns(pid) - begun} turns of {count}")


def memory(pid: int, name="VmRSS") -> int:
    """What it takes of the memory, in KB; `VmHWM` is the most that it took."""
    return int(re.search(rf"^{name}:\s+(\d+)", content(f"/proc/{pid}/status"), re.M)[1])


def open_files(pid: int) -> int:
    return len(os.listdir(f"/proc/{pid}/fd"))


def seconds(pid: int) -> float:
    """What it took of the processor."""
    fields = content(f"/proc/{pid}/stat").rpartition(")")[2].split()
    return (int(fields[11]) + int(fields[12])) / os.sysconf("SC_CLK_TCK")


def children(pid: int) -> dict[int, list[bytes]]:
    """The processes that it began, with their words."""
    found = {}
    for it in filter(str.isdigit, os.listdir("/proc")):
        try:
            if bytes_of(f"/proc/{it}/stat").rpartition(b")")[2].split()[1] == b"%d" % pid:
                found[int(it)] = bytes_of(f"/proc/{it}/cmdline").split(b"\0")
        except (OSError, AttributeError):
            continue
    return found
