"""What a page does with the ticket behind `#` in the link of a desk's square: by its tag it asks for the secret, and by the ticket it
reads what is answered. What it does with the secret: it signs and hides a line, and reads what the desk hid."""
import hashlib, hmac, re


def made(key, text):
    return hmac.new(key, text, hashlib.sha256).digest()


def tagged(key, text):
    return made(key, text.encode())


def ticket_tag(ticket):
    """What shows that its maker has the ticket."""
    return tagged(ticket, "ticket").hex()


def xored(text, pad):
    return bytes(one ^ other for one, other in zip(text, pad))


def secret_in(ticket, text):
    """The secret, of what was answered."""
    return xored(bytes.fromhex(text.strip()), tagged(ticket, "secret"))


def turned(secret, seed, text):
    """A text, hidden by the keystream of this seed; or what is hidden, as a text."""
    key = tagged(secret, "stream")
    return xored(text, b"".join(made(key, seed + b" %d" % block) for block in range(len(text) // 32 + 1)))


def signed(secret, nonce, at, line):
    """The tag of a line's post, and the line, hidden by it."""
    tag = made(secret, f"{nonce} {at} ".encode() + line)
    return tag.hex(), turned(secret, b"desk " + tag, line)


def watched(secret, nonce):
    """Where the events are, for who signs that they want them."""
    return f"/events?nonce={nonce}&tag={tagged(secret, f'{nonce} watch').hex()}"


def read_by(secret, number, digits):
    """What a desk hid under a number, in hex digits; nothing where that is altered."""
    seed, told = b"page %d" % number, bytes.fromhex(digits)
    is_whole = told[:32] == made(tagged(secret, "frame"), seed + b" " + told[32:])
    return turned(secret, seed, told[32:]).decode() if is_whole else None


def numbered(stream):
    """The numbers and the texts of the events in a stream's bytes."""
    return [(int(number), text) for number, text in re.findall(r"id: (\d+)\ndata: (.*)\n\n", stream.decode())]
