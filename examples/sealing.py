#!/usr/bin/env python3
"""Seals and opens datagrams with a match sheet and a key, from docs/FORMATS.md alone.

usage: examples/sealing.py SHEET KEY [DATAGRAM]

KEY is a file, or - for no key. It prints the fingerprints that stations print as they begin and, of a datagram in hexadecimal,
its sealed form, or the message of a sealed one.
"""
import hashlib, hmac, sys, tomllib


def limits_of(limits):
    """The bytes of a sheet's table `limits`. A key that can't be what it says is as if it weren't there."""
    is_overs = lambda number: type(number) is int and 1 <= number <= 450
    is_pair = lambda pair: type(pair) is list and len(pair) == 2 and all(map(is_overs, pair)) and pair[0] <= pair[1]
    fit = lambda values, test: values if type(values) is list and all(map(test, values)) else []
    listed = lambda value: value if type(value) is list else [value]
    marked = lambda mark, numbers: bytes([mark]) + b"".join(number.to_bytes(2, "big") for number in numbers)
    overs = [marked(1, [number]) for number in fit(listed(limits.get("overs", [])), is_overs)]
    bowler = [marked(2, [number]) for number in fit([limits.get("overs_a_bowler")], is_overs)]
    free = [marked(3, [])] if limits.get("free_hits") is True else []
    powerplays = [marked(4, pair) for pair in fit(limits.get("powerplays", []), is_pair)]
    return b"".join(overs + bowler + free + powerplays)


def digest_of(sheet):
    """The digest of a sheet, of which this is the file."""
    with open(sheet, "rb") as it:
        told = tomllib.load(it)
    text = lambda words: len(words.encode()).to_bytes(8, "big") + words.encode()
    side = lambda name: text(told[name]["name"]) + b"".join(map(text, told[name]["players"]))
    front = text(told["title"]) + told["number"].to_bytes(8, "big") + bytes([told["innings"]])
    limits = told.get("limits")
    behind = limits_of(limits) if type(limits) is dict else b""
    return hashlib.sha256(front + side("home") + side("away") + behind).digest()


def key_in(file):
    """The key in a file."""
    with open(file, "rb") as it:
        key = it.read().rstrip(b" \t\n\f\r")
    if not 16 <= len(key) <= 1024:
        raise ValueError(f"{file} has no key")
    if key.startswith(b"yermudosh key of "):
        raise ValueError(f"{file} has two keys, of which one seals for each hearer")
    return key


OWNERS = (b"desk a", b"desk b", b"board1", b"board2", b"board3", b"board4")


def pair_in(file):
    """The two keys in a station's file. A desk's are the one that it shares with the other desk, and the one of which those are made
    that it shares with boards. A board's are those that it shares with desk A and with desk B."""
    with open(file, "rb") as it:
        owner, *keys = it.read().rstrip(b" \t\n\f\r").split(b"\n")
    if owner not in (b"yermudosh key of " + name for name in OWNERS) or [*map(len, keys)] != [64, 64]:
        raise ValueError(f"{file} has no two keys")
    return keys


def board_key(key, board):
    """The key that a desk shares with the first to the fourth board, of the second key in the desk's file: HKDF-Expand (RFC 5869)."""
    return hmac.digest(key, b"board %d\x01" % board, "sha256").hex().encode()


class Seal:
    """What a match's datagrams are sealed with."""

    def __init__(self, sheet, key=b""):
        self.digest = digest_of(sheet)
        self.key = hmac.digest(self.digest, key, "sha256")

    def tag(self, message):
        return hmac.digest(self.key, message, "sha256")[:16]

    def sealed(self, message, receipt=b""):
        """The sealed form of a message, which may have a receipt."""
        return message + receipt + self.tag(message + receipt)

    def opened(self, data):
        """The message of which these bytes are the sealed form, or `None`."""
        is_sealed = len(data) in (64, 80) and hmac.compare_digest(data, self.sealed(data[:48], data[48:-16]))
        return data[:48] if is_sealed else None

    def fingerprints(self, has_key):
        """The lines that stations print as they begin."""
        fingerprint = lambda name, data: f"{name} {data[:2].hex()}-{data[2:4].hex()}"
        return [fingerprint("sheet", self.digest)] + ([fingerprint("key", self.tag(b""))] if has_key else [])


def main(sheet, key, *datagrams):
    seal = Seal(sheet, b"" if key == "-" else key_in(key))
    print("\n".join(seal.fingerprints(key != "-")))
    for data in map(bytes.fromhex, datagrams):
        message = seal.sealed(data) if len(data) == 48 else seal.opened(data)
        print(message.hex() if message is not None else "doesn't open")


if __name__ == "__main__":
    main(*sys.argv[1:])
