"""Reads what the program prints by `--each`: a frame for each match of a list of folders, taken as it is printed.

A frame is a line, and then as many bytes as it tells: folder, places of A's file and of B's, agreed entries, bytes, with tabs between.
"""
import os
import re
import subprocess
import tempfile
from dataclasses import dataclass

# no folder whose name has one is in the list
CONTROL = re.compile("[\x00-\x1f\x7f]")


@dataclass
class Frame:
    """A text of a match, with how many places each desk's file has, and how many entries both have agreed."""

    folder: str
    a: int
    b: int
    agreed: int
    text: str


class Printing:
    """One run of the program over many matches."""

    def __init__(self, program, word, folders):
        self.errors, self.told = tempfile.TemporaryFile(), []
        with tempfile.TemporaryFile() as names:
            names.write(b"".join(os.fsencode(folder) + b"\n" for folder in folders if not CONTROL.search(folder)))
            names.seek(0)
            self.run = subprocess.Popen([program, word, "--each"], stdin=names, stdout=subprocess.PIPE, stderr=self.errors)
        self.ahead = self.taken()

    def taken(self):
        """The next frame, or none where there are no more, or the program ended within one."""
        line = self.run.stdout.readline()
        if not line:
            return None
        folder, *numbers = line.rstrip(b"\n").split(b"\t")
        a, b, agreed, size = map(int, numbers)
        text = self.run.stdout.read(size)
        return Frame(os.fsdecode(folder), a, b, agreed, text.decode()) if len(text) == size else None

    def frame_of(self, folder):
        """The frame of a folder, or none. Folders are asked for in the order of the list."""
        frame = self.ahead
        if frame is None or frame.folder != folder:
            return None
        self.ahead = self.taken()
        return frame

    def reason_of(self, folder):
        """Why a folder has no frame: it is told before the frame of any other one behind it."""
        if self.ahead is None:
            self.run.wait()
        self.errors.seek(sum(len(line) + 1 for line in self.told))
        self.told += self.errors.read().split(b"\n")[:-1]
        begin = os.fsencode(folder) + b": "
        told = [line.removeprefix(begin) for line in self.told if line.startswith(begin)] or self.told
        return told[-1].decode(errors="replace") if told else f"the program ended before it, with status {self.run.returncode}"

    def end(self):
        self.run.stdout.close()
        self.run.wait()
        self.errors.close()
