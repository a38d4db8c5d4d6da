"""Reads a printed QR code of version 4, level L and mask 0 (ISO/IEC 18004), and refuses one with any module wrong."""

import os, sys

sys.path.insert(0, f"{os.path.dirname(os.path.dirname(os.path.realpath(__file__)))}/tools")
from squares import MARGIN, POWERS, SIDE, data_places, patterns, product

MODULES = {" ": (0, 0), "▀": (1, 0), "▄": (0, 1), "█": (1, 1)}
BLACK_ON_WHITE, BOTH_BLACK, PLAIN = "\x1b[38;5;16;48;5;231m", "\x1b[48;5;16m \x1b[48;5;231m", "\x1b[0m"
ROWS_LEFT_OUT = 2  # of the margin, above and below


class Unreadable(Exception):
    pass


def needs(holds, what):
    if not holds:
        raise Unreadable(what)


def value_at(codewords, x):
    """The value at x of the polynomial with these coefficients, the highest first."""
    value = 0
    for codeword in codewords:
        value = product(value, x) ^ codeword
    return value


def is_sound(codewords, check):
    """Whether the last of these are the check codewords of the others: each power of 2 below 2^check is a root."""
    return all(value_at(codewords, x) == 0 for x in POWERS[:check])


def modules_of(printed):
    """The modules of a print by row and column, without the margin."""
    rows = []
    for line in printed.split("\n"):
        needs(line.startswith(BLACK_ON_WHITE) and line.endswith(PLAIN), "colours")
        blocks = [MODULES[it] for it in line[len(BLACK_ON_WHITE) : -len(PLAIN)].replace(BOTH_BLACK, "█")]
        needs(len(blocks) == SIDE + 2 * MARGIN, "columns")
        rows += [[upper for upper, _ in blocks], [lower for _, lower in blocks]]
    needs(len(rows) == SIDE + 2 * (MARGIN - ROWS_LEFT_OUT) + 1, "rows")
    rows = ROWS_LEFT_OUT * [[0] * (SIDE + 2 * MARGIN)] + rows
    inner = range(MARGIN, MARGIN + SIDE)
    for r, row in enumerate(rows):
        for c, dark in enumerate(row):
            needs(not dark or r in inner and c in inner, f"margin at {r}, {c}")
    return [row[MARGIN : MARGIN + SIDE] for row in rows[MARGIN : MARGIN + SIDE]]


def codewords_of(modules):
    """All codewords, once each module that is no data, and those behind the last codeword, were found right."""
    fixed = patterns()
    for (r, c), dark in fixed.items():
        needs(modules[r][c] == dark, f"pattern at {r}, {c}")
    bits = "".join(str(modules[r][c] ^ ((r + c) % 2 == 0)) for r, c in data_places(fixed))
    needs(len(bits) == 807 and bits[800:] == "0" * 7, "bits that are left")
    return [int(bits[at : at + 8], 2) for at in range(0, 800, 8)]


def text_of(codewords):
    """The bytes that the codewords say."""
    needs(is_sound(codewords, 20), "check codewords")
    bits = "".join(f"{it:08b}" for it in codewords[:80])
    needs(bits[:4] == "0100", "mode")
    length = int(bits[4:12], 2)
    end = 12 + 8 * length
    text = bytes(int(bits[at : at + 8], 2) for at in range(12, end, 8))
    needs(len(text) == length and bits[end : end + 4] == "0000", "end")
    pads = [int(bits[at : at + 8], 2) for at in range(end + 4, 640, 8)]
    needs(pads == [(0xEC, 0x11)[k % 2] for k in range(len(pads))], "pads")
    return text


def read(printed):
    """The bytes of a print, without the last line feed."""
    return text_of(codewords_of(modules_of(printed)))
