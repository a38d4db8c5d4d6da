"""A square for a telephone's camera: a QR code of version 4, level L and mask 0 (ISO/IEC 18004), as the program draws its own. Run, it prints that
of the text of its standard input."""
import sys

SIDE, DATA, CHECK, MARGIN = 33, 80, 20, 4
FORMAT = "111011111000100"  # of level L and mask 0, from the standard's table
BLOCKS = [" ", "▀", "▄", "\x1b[48;5;16m \x1b[48;5;231m"]
BEFORE, BEHIND = "\x1b[38;5;16;48;5;231m", "\x1b[0m"


def powers():
    """2^0, 2^1 and so on in the field of 256 elements, where 2^8 is 2^4 + 2^3 + 2^2 + 1."""
    found = [1]
    while len(found) < 255:
        twice = found[-1] << 1
        found.append(twice ^ 0x11D if twice > 255 else twice)
    return found


POWERS = powers()
LOGARITHMS = {it: at for at, it in enumerate(POWERS)}


def product(one, other):
    return POWERS[(LOGARITHMS[one] + LOGARITHMS[other]) % 255] if one and other else 0


def check_codewords(data):
    """What makes each power of 2 below 2^20 a root of all."""
    divisor = [1]
    for root in POWERS[:CHECK]:
        shifted = divisor + [0]
        divisor = [one ^ product(root, other) for one, other in zip(shifted, [0] + divisor)]
    left = list(data) + CHECK * [0]
    for at in range(len(data)):
        for k, it in enumerate(divisor):
            left[at + k] ^= product(left[at], it) if k else 0
    return left[len(data) :]


def codewords(text: bytes):
    if len(text) > DATA - 2:
        raise ValueError("too long for a square")
    bits = "0100" + f"{len(text):08b}" + "".join(f"{it:08b}" for it in text) + "0000"
    data = [int(bits[at : at + 8], 2) for at in range(0, len(bits), 8)]
    data += [(0xEC, 0x11)[k % 2] for k in range(DATA - len(data))]
    return data + check_codewords(data)


def patterns():
    """What is no data, by row and column: three finders with their borders, an alignment, timing, format, one dark."""
    fixed = {}
    for at in range(8, SIDE - 8):
        fixed[6, at] = fixed[at, 6] = 1 - at % 2
    for top, left in (0, 0), (0, SIDE - 7), (SIDE - 7, 0):
        for r in range(-1, 8):
            for c in range(-1, 8):
                if 0 <= top + r < SIDE and 0 <= left + c < SIDE:
                    fixed[top + r, left + c] = int(max(abs(r - 3), abs(c - 3)) in (0, 1, 3))
    for r in range(-2, 3):
        for c in range(-2, 3):
            fixed[26 + r, 26 + c] = int(max(abs(r), abs(c)) != 1)
    around = [(8, c) for c in (0, 1, 2, 3, 4, 5, 7, 8)] + [(r, 8) for r in (7, 5, 4, 3, 2, 1, 0)]
    apart = [(SIDE - 1 - k, 8) for k in range(7)] + [(8, SIDE - 8 + k) for k in range(8)]
    for places in around, apart:
        fixed |= {place: int(bit) for place, bit in zip(places, FORMAT)}
    return fixed | {(SIDE - 8, 8): 1}


def data_places(fixed):
    """The places of data in their order: two columns at a time from the right, by turns up and down."""
    upward = True
    for right in [*range(SIDE - 1, 6, -2), 5, 3, 1]:
        for r in range(SIDE - 1, -1, -1) if upward else range(SIDE):
            yield from [(r, c) for c in (right, right - 1) if (r, c) not in fixed]
        upward = not upward


def modules(text: str) -> list[list[int]]:
    """The square's rows: 1 is dark."""
    found = patterns()
    bits = "".join(f"{it:08b}" for it in codewords(text.encode())) + 7 * "0"
    for (r, c), bit in zip(list(data_places(found)), bits):
        found[r, c] = int(bit) ^ ((r + c) % 2 == 0)
    return [[found[r, c] for c in range(SIDE)] for r in range(SIDE)]


def printed(text: str) -> str:
    """The square for a terminal, two rows of it in one, with a margin."""
    wide = [MARGIN * [0] + row + MARGIN * [0] for row in modules(text)]
    empty = (SIDE + 2 * MARGIN) * [0]
    rows = 2 * [empty] + wide + 3 * [empty]
    pairs = [zip(rows[at], rows[at + 1]) for at in range(0, len(rows) - 1, 2)]
    return "\n".join(BEFORE + "".join(BLOCKS[upper + 2 * lower] for upper, lower in pair) + BEHIND for pair in pairs)


if __name__ == "__main__":
    sys.stdout.reconfigure(encoding="utf-8")
    print(printed(sys.stdin.read()))
