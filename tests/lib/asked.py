"""Asks Linux's C library for calls one after the other, as asked.mjs asks the kernel, and writes what each comes to.

usage: asked.py OUT <CALLS
"""
import base64, ctypes, json, os, sys

F_DUPFD_CLOEXEC, AT_FDCWD, TOLD = 1030, -100, 0xFFF
C = ctypes.CDLL(None, use_errno=True)


def facts(room):
    """What is told of a file, but for what a file system says of it and where that is mounted."""
    told = bytearray(room.raw[:256])
    told[0:4] = (int.from_bytes(told[0:4], "little") & TOLD).to_bytes(4, "little")
    told[8:16] = told[56:64] = bytes(8)
    told[144:] = bytes(112)
    return bytes(told)


def answers(calls):
    room = ctypes.create_string_buffer(1 << 21)
    for name, *values in calls:
        ctypes.set_errno(0)
        data = b""
        if name == "open":
            answer = C.open(values[0].encode(), values[1], values[2])
        elif name == "dup":
            answer = C.fcntl(values[0], F_DUPFD_CLOEXEC, values[1])
        elif name == "statx":
            answer = C.statx(AT_FDCWD, values[0].encode(), values[1], TOLD, room)
            data = facts(room) if answer == 0 else b""
        elif name == "unlink":
            answer = C.unlink(values[0].encode())
        elif name in ("close", "fsync"):
            answer = getattr(C, name)(values[0])
        elif name == "lseek":
            answer = os.lseek(values[0], 0, 1) if os.path.isfile(f"/proc/self/fd/{values[0]}") else C.lseek(values[0], 0, 1)
        elif name == "write":
            text = base64.b64decode(values[1])
            answer = C.write(values[0], text, len(text))
        elif name == "getentropy":
            answer = C.getentropy(room, values[0])
        else:
            answer = C.read(values[0], room, values[1])
            data = room.raw[: max(answer, 0)]
        yield [answer, ctypes.get_errno() if answer == -1 else 0, base64.b64encode(data).decode()]


asked = json.load(sys.stdin)
os.closerange(3, 256)
found = list(answers(asked["calls"]))
with open(sys.argv[1], "w", encoding="utf-8") as it:
    json.dump(found, it)
