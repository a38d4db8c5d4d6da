"""What two machines tell each other who have one code, so that nobody else reads it or alters it unseen. It is made of HMAC-SHA-256 alone: in
counter mode (SP 800-108) for a keystream, and over what that hides for a tag. Each direction of each exchange has keys of its own, each
frame its number. Of the standard library alone."""
import hashlib, hmac, secrets

# Crockford's 32, of which none is taken for another; 16 of them are 80 bits.
SIGNS, LENGTH = "0123456789abcdefghjkmnpqrstvwxyz", 16
TAG, NONCE = 32, 16


def new_code() -> str:
    """A code, in groups of four."""
    text = "".join(secrets.choice(SIGNS) for _ in range(LENGTH))
    return "-".join(text[at : at + 4] for at in range(0, LENGTH, 4))


def code_in(text: str) -> str | None:
    """A code as somebody typed it; nothing where it is none."""
    found = "".join(text.lower().replace("-", " ").split()).translate(str.maketrans("oil", "011"))
    return found if len(found) == LENGTH and set(found) <= set(SIGNS) else None


def secret_of(code: str) -> bytes:
    """A code's secret, which takes some time and 16 MB to make."""
    return hashlib.scrypt(code_in(code).encode(), salt=b"yermudosh code 1", n=1 << 14, r=8, p=1, dklen=32)


def made(key: bytes, text: bytes) -> bytes:
    return hmac.digest(key, text, "sha256")


def keystream(key: bytes, fixed: bytes, size: int) -> bytes:
    """So many bytes: the tags of 1, 2 and so on, each before the same bytes."""
    return b"".join(made(key, block.to_bytes(4, "big") + fixed) for block in range(1, (size + 31) // 32 + 1))[:size]


class Direction:
    """What goes one way in an exchange."""

    def __init__(self, secret: bytes, name: str, nonces: bytes):
        about = name.encode() + b" " + nonces
        self.hiding, self.tagging = made(secret, b"hide " + about), made(secret, b"tag " + about)

    def turned(self, number: int, text: bytes) -> bytes:
        stream = keystream(self.hiding, number.to_bytes(8, "big"), len(text))
        return bytes(one ^ other for one, other in zip(text, stream))

    def tag(self, number: int, hidden: bytes) -> bytes:
        return made(self.tagging, number.to_bytes(8, "big") + hidden)

    def seal(self, number: int, text: bytes) -> bytes:
        """The frame of this number. A number is for one text."""
        hidden = self.turned(number, text)
        return self.tag(number, hidden) + hidden

    def open(self, number: int, frame: bytes) -> bytes | None:
        """What the frame of this number hides; nothing where it isn't the other's."""
        hidden = frame[TAG:]
        return self.turned(number, hidden) if hmac.compare_digest(frame[:TAG], self.tag(number, hidden)) else None


def both(secret: bytes, nonces: bytes) -> tuple[Direction, Direction]:
    """What goes from who offers, and from who asks."""
    return Direction(secret, "offer", nonces), Direction(secret, "ask", nonces)
