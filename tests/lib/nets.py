"""A network of a case's own, of which it alone is in, and which can be switched off and on."""
import ctypes, errno, fcntl, os, shutil, socket, struct, subprocess
from .waiting import Wrong, wait_for

NEW_USER, NEW_NET, NEW_MOUNTS = 0x10000000, 0x40000000, 0x20000
GET_FLAGS, SET_FLAGS, UP = 0x8913, 0x8914, 1


class Denied(Wrong):
    """This machine gives nobody a network."""


class Net:
    """Takes the process, which has one thread, into a network of its own, whose loopback is on. So are those that it begins."""

    def __init__(self):
        user, group = os.getuid(), os.getgid()
        libc = ctypes.CDLL(None, use_errno=True)
        if libc.unshare(NEW_NET | (NEW_USER if user else 0)):
            raise Denied(os.strerror(ctypes.get_errno()))
        if user:
            for file, text in (("setgroups", "deny"), ("uid_map", f"0 {user} 1"), ("gid_map", f"0 {group} 1")):
                with open(f"/proc/self/{file}", "w") as it:
                    it.write(text)
        self.switch(True)

    def switch(self, is_on: bool):
        """Switches the loopback on or off: then nothing that is sent arrives."""
        with socket.socket(socket.AF_INET, socket.SOCK_DGRAM) as it:
            name, (flags,) = b"lo".ljust(16, b"\0"), struct.unpack("16xH", fcntl.ioctl(it, GET_FLAGS, struct.pack("16sH14x", b"lo", 0))[:18])
            fcntl.ioctl(it, SET_FLAGS, struct.pack("16sH14x", name, flags | UP if is_on else flags & ~UP))


def own_net() -> Net | None:
    """A network of its own, or nothing where this machine gives nobody one."""
    try:
        return Net()
    except Denied:
        return None
    except OSError as why:
        if why.errno in (errno.EPERM, errno.EACCES):
            return None
        raise


class Machine:
    """Another machine: its processes have a network of their own, in which it has an address. They are begun behind `words`."""

    def __init__(self, number: int, switch: str):
        self.holder = subprocess.Popen(["unshare", "-n", "sleep", "infinity"])
        wait_for("a machine's network", lambda: self.network() not in (None, os.readlink("/proc/self/ns/net")))
        self.words = [shutil.which("nsenter"), "-t", str(self.holder.pid), "-n"]
        self.port = f"m{number}"
        ip("link", "add", self.port, "type", "veth", "peer", "name", "eth0", "netns", str(self.holder.pid))
        ip("link", "set", self.port, "master", switch, "up")
        self.address = f"10.77.0.{number}"
        for words in (["link", "set", "lo", "up"], ["addr", "add", f"{self.address}/24", "dev", "eth0"], ["link", "set", "eth0", "up"]):
            self.ip(*words)

    def network(self) -> str | None:
        try:
            return os.readlink(f"/proc/{self.holder.pid}/ns/net")
        except OSError:
            return None

    def ip(self, *words: str):
        ip(*words, before=self.words)

    def loses_for(self, other):
        """Has nothing that is sent from here arrive at the other, unseen, as where a firewall drops it."""
        self.ip("neigh", "replace", other.address, "lladdr", "02:00:00:00:00:01", "dev", "eth0", "nud", "permanent")

    def move(self, address: str):
        """Gives it another address."""
        self.ip("addr", "del", f"{self.address}/24", "dev", "eth0")
        self.address = address
        self.ip("addr", "add", f"{self.address}/24", "dev", "eth0")


def ip(*words: str, before=()):
    found = subprocess.run([*before, "ip", *words], capture_output=True, text=True)
    if found.returncode:
        raise Denied(f"ip {' '.join(words)}: {found.stderr}")


def machines(count: int) -> list[Machine] | None:
    """So many machines and this process in one network, of which they alone are; nothing where this machine gives nobody one."""
    if not own_net() or not all(map(shutil.which, ("ip", "unshare", "nsenter"))):
        return None
    try:
        ip("link", "add", "switch", "type", "bridge")
        ip("addr", "add", "10.77.0.99/24", "dev", "switch")
        ip("link", "set", "switch", "up")
        return [Machine(number + 1, "switch") for number in range(count)]
    except Denied:
        return None


def keep_apart(*machines: Machine):
    """Has the network keep these from each other, as one for guests does."""
    for it in machines:
        ip("link", "set", it.port, "type", "bridge_slave", "isolated", "on")


def stick(folder: str, size: int) -> bool:
    """Has a folder be a disk of so many bytes, which this process and those that it begins see: whether this machine gives one."""
    libc = ctypes.CDLL(None, use_errno=True)
    if libc.unshare(NEW_MOUNTS | (NEW_USER if os.getuid() else 0)):
        return False
    os.makedirs(folder, exist_ok=True)
    words = (["--make-rprivate", "/"], ["-t", "tmpfs", "-o", f"size={size}", "tmpfs", folder])
    return all(subprocess.run(["mount", *it], capture_output=True).returncode == 0 for it in words)


def fill(folder: str):
    """Leaves no room on the disk of a folder: its file `full` has all."""
    with open(f"{folder}/full", "wb", 0) as it:
        try:
            while it.write(4096 * b"x"):
                pass
        except OSError:
            pass
