"""Messages of a match, by docs/FORMATS.md: votes for entries that are used in tests, and asks."""

MATCH = 20260822
DESK_A, DESK_B, BOARD = 1, 2, 3
ENDS = {"over": 5, "void": 10}


def code(line):
    """The 24 bytes of an entry, of those that are used here."""
    words = line.split()
    if words[0] == "innings":
        front = [1, 0, 0, 0, 0, 0, 1 + (words[1] == "away")]
    elif words[0] == "in":
        front = [2, 0, 0, 0, 0, 0, int(words[1])]
    elif words[0] in ENDS:
        front = [ENDS[words[0]]]
    else:
        front = [3, 0, 0, 0, 0, 0, int(words[1]), 1, int(words[3])]
    return bytes(front + [0] * (24 - len(front)))


def message(kind, sender, place, round_, entry):
    front = b"CB\x02" + bytes([kind]) + MATCH.to_bytes(8, "big") + bytes([sender])
    return front + place.to_bytes(4, "big") + round_.to_bytes(2, "big") + entry + bytes(5)


def vote(sender, place, round_, line):
    """A desk's vote, as 48 bytes."""
    return message(1, sender, place, round_, code(line))


def ask(sender, place, round_):
    """An ask for the vote of a position, as 48 bytes."""
    return message(2, sender, place, round_, bytes(24))
