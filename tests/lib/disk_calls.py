"""Calls of files, for tests: made up, and as this machine answers them."""
import os, stat


class Linux:
    """The same calls of this machine's files, in a folder."""

    def __init__(self, folder):
        self.at = os.open(folder, os.O_RDONLY)

    def told(self, found):
        return [found.st_size if not stat.S_ISDIR(found.st_mode) else 0, found.st_mode >> 12]

    def open(self, path, flags):
        return os.open(path, flags, 0o600, dir_fd=self.at)

    def close(self, fd):
        return os.close(fd) or 0

    def pwrite(self, fd, data, at):
        return os.pwrite(fd, data.encode(), at)

    def write(self, fd, data):
        return os.write(fd, data.encode())

    def read(self, fd, count):
        return os.read(fd, count).decode("latin1")

    def lseek(self, fd, at, how):
        return os.lseek(fd, at, how)

    def ftruncate(self, fd, size):
        return os.ftruncate(fd, size) or 0

    def fsync(self, fd):
        return os.fsync(fd) or 0

    def size(self, fd):
        return self.told(os.fstat(fd))

    def look(self, path):
        return self.told(os.stat(path, dir_fd=self.at))

    def unlink(self, path):
        return os.unlink(path, dir_fd=self.at) or 0

    def rename(self, old, new):
        return os.rename(old, new, src_dir_fd=self.at, dst_dir_fd=self.at) or 0


def calls_made_up(rng, count):
    """Calls of some files, read and written and read alone; names change while none is open, as the program has it. A file's number stands for the how-many-th opened."""
    opened, made, paths = [], [], ["a.votes", "a.votes.new", "./a.votes", "x"]
    for _ in range(count):
        name = rng.choice(["open", "close", "pwrite", "pwrite", "write", "read", "lseek", "ftruncate", "fsync", "size", "look", "names"])
        if name == "open" and len(opened) < 3:
            made.append(["open", rng.choice(paths), os.O_RDWR | rng.choice([0, os.O_CREAT, os.O_CREAT | os.O_EXCL, os.O_CREAT | os.O_TRUNC]) | os.O_CLOEXEC])
            opened.append(None)
        elif name == "look":
            made.append(["look", rng.choice([*paths, "missing", "."])])
        elif name == "names" or not opened:
            made += [["close", number] for number in range(3, 3 + len(opened))]
            opened = []
            made.append(["unlink", rng.choice(paths)] if rng.random() < 0.4 else ["rename", *rng.sample(paths, 2)])
        else:
            fd = 3 + rng.randrange(len(opened))
            more = {"pwrite": lambda: ["x" * rng.randrange(70), rng.randrange(300)], "write": lambda: ["y" * rng.randrange(40)], "read": lambda: [rng.randrange(200)],
                    "lseek": lambda: [rng.randrange(100), rng.randrange(3)], "ftruncate": lambda: [rng.randrange(400)]}
            if name in ("open", "close"):
                name = "size"
            made.append([name, fd, *more.get(name, list)()])
    return made
