"""Programs at terminals of their own, what is typed there, and what a terminal shows."""
import fcntl, os, pty, re, select, signal, struct, termios
from . import processes
from .waiting import Wrong, expect, wait_for

COLUMNS, ROWS = 80, 24
BEGINNERS = {os.path.realpath(it) for it in ("/bin/sh", "/bin/bash", "/proc/self/exe")}
UP, DOWN, RIGHT, LEFT, DELETE = b"\x1b[A", b"\x1b[B", b"\x1b[C", b"\x1b[D", b"\x1b[3~"
CTRL_A, CTRL_C, CTRL_D, CTRL_E, CTRL_Q, CTRL_S = b"\x01", b"\x03", b"\x04", b"\x05", b"\x11", b"\x13"
CTRL_U, CTRL_W, CTRL_Z, BACKSPACE = b"\x15", b"\x17", b"\x1a", b"\x7f"


class Screen:
    """What a terminal shows: its rows, and where the cursor stands in the last one."""

    def __init__(self):
        self.rows, self.column = [""], 0

    def take(self, data: bytes):
        for piece in re.findall(r"\x1b\[K|[^\x1b]", data.decode("ascii", errors="replace")):
            if piece == "\x1b[K":
                self.rows[-1] = self.rows[-1][: self.column]
            elif piece == "\r":
                self.column = 0
            elif piece == "\n":
                self.rows.append(" " * self.column)
            else:
                self.put(piece)

    def put(self, sign):
        if self.column == COLUMNS:
            self.rows.append("")
            self.column = 0
        row = self.rows[-1].ljust(self.column)
        self.rows[-1] = row[: self.column] + sign + row[self.column + 1 :]
        self.column += 1

    def last(self):
        """The row that the cursor stands in, with `|` where it does."""
        row = self.rows[-1].ljust(self.column)
        return f"{row[: self.column]}|{row[self.column :]}"


class Terminal:
    """A program at a terminal of its own, as a shell starts it. Where `is_job` it is a job in the foreground, as a shell's is: where
    it is stopped then, it is ended and the status is 9."""

    def __init__(self, words, folder=None, around=None, is_job=False):
        self.keys, self.far = pty.openpty()
        fcntl.ioctl(self.far, termios.TIOCSWINSZ, struct.pack("HHHH", ROWS, COLUMNS, 0, 0))
        self.before, self.screen, self.bytes = termios.tcgetattr(self.far), Screen(), b""
        self.pid = os.fork()
        if self.pid == 0:
            try:
                self.live(words, folder, around, is_job)
            finally:
                os._exit(127)

    def live(self, words, folder, around, is_job):
        os.setsid()
        # what is begun in the background ignores these, and so would a program
        for number in (signal.SIGINT, signal.SIGHUP, signal.SIGQUIT, signal.SIGTERM):
            signal.signal(number, signal.SIG_DFL)
        fcntl.ioctl(self.far, termios.TIOCSCTTY, 0)
        for stream in (0, 1, 2):
            os.dup2(self.far, stream)
        if folder:
            os.chdir(folder)
        if is_job:
            signal.signal(signal.SIGTTOU, signal.SIG_IGN)
            child = os.fork()
            if child:
                _, status = os.waitpid(child, os.WUNTRACED)
                stopped = os.WIFSTOPPED(status)
                os.kill(child, signal.SIGKILL) if stopped else None
                os._exit(9 if stopped else os.waitstatus_to_exitcode(status))
            os.setpgid(0, 0)
            os.tcsetpgrp(0, os.getpgrp())
            signal.signal(signal.SIGTTOU, signal.SIG_DFL)
        os.execve(words[0], words, around if around is not None else os.environ)

    def type(self, data: bytes | str):
        os.write(self.keys, data if isinstance(data, bytes) else data.encode())

    def type_line(self, line: str):
        self.type(f"{line}\n")

    def read(self) -> Screen:
        """Takes what is there, and answers the screen."""
        while select.select([self.keys], [], [], 0)[0]:
            try:
                data = os.read(self.keys, 65536)
            except OSError:
                break
            if not data:
                break
            self.bytes += data
            self.screen.take(data)
        return self.screen

    def wait_for(self, row: str):
        """Waits until a row is shown whole."""
        wait_for(repr(row), lambda: row in self.read().rows, but=lambda: self.screen.rows[-12:])

    def wait_line(self, line: str):
        """Waits until the line that is being typed stands so, the cursor being at `|`."""
        wait_for(repr(line), lambda: self.read().last() == f"> {line}", but=lambda: self.screen.last())

    def jobs(self) -> list[int]:
        """The processes of the job in the foreground, but for shells and who began them."""
        group, found = os.tcgetpgrp(self.keys), []
        # a shell's job leads its own group
        for it in [group] if self.is_no_shell(group) else map(int, filter(str.isdigit, os.listdir("/proc"))):
            try:
                if os.getpgid(it) == group and self.is_no_shell(it):
                    found.append(it)
            except ProcessLookupError:
                pass
        return found

    @staticmethod
    def is_no_shell(pid: int) -> bool:
        try:
            return os.readlink(f"/proc/{pid}/exe") not in BEGINNERS
        except OSError:
            return False

    def settles(self):
        """Waits until what runs in the foreground has taken what came and told all that there was."""
        processes.settle(*self.jobs())
        self.read()

    def status(self) -> int:
        """The status with which it ends by itself."""
        found = []

        def has_ended():
            self.read()
            pid, status = os.waitpid(self.pid, os.WNOHANG)
            return pid and (found.append(status) or True)

        try:
            wait_for("the end of a program at a terminal", has_ended, but=lambda: self.screen.rows[-12:], pause=0.01)
        except Wrong:
            self.kill()
            raise
        self.read()
        return os.waitstatus_to_exitcode(found[0])

    def is_as_before(self):
        expect("the terminal", termios.tcgetattr(self.far), self.before)

    def kill(self):
        for pid in [self.pid, *processes.children(self.pid)]:
            try:
                os.kill(pid, signal.SIGKILL)
            except ProcessLookupError:
                pass
        try:
            os.waitpid(self.pid, 0)
        except ChildProcessError:
            pass

    def close(self):
        self.kill()
        os.close(self.keys), os.close(self.far)

    def __enter__(self):
        return self

    def __exit__(self, *_):
        self.close()
