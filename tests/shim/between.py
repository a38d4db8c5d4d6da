"""Who is between a page and its desk: reads all that passes, and may alter it."""
import socket, threading


def flipped(piece, is_for_desk):
    """A piece with a bit of a line turned, which comes with its fields or behind them, or of what is hidden for the page."""
    if is_for_desk:
        return piece if piece.endswith(b"\r\n\r\n") else piece[:-1] + bytes([piece[-1] ^ 1])
    begins = piece.find(b"data: ") + 6
    at = begins + 94
    if begins < 6 or piece[begins : begins + 1] == b"{" or at >= len(piece):
        return piece
    return piece[:at] + (b"%x" % (int(piece[at : at + 1], 16) ^ 1)) + piece[at + 1 :]


class Between:
    """Passes on what comes at a place of its own, to a desk's and back. `alters` is given each piece, and whether it is for the desk. While it
    doesn't go on, pieces wait; a desk that is begun again is found again."""

    def __init__(self, place, alters=lambda piece, is_for_desk: piece):
        host, port = place.split(":")
        self.where, self.read, self.alters = (host, int(port)), {True: b"", False: b""}, alters
        self.goes_on = threading.Event()
        self.goes_on.set()
        self.it = socket.create_server((host, 0))
        self.place = "%s:%d" % self.it.getsockname()
        threading.Thread(target=self.work, daemon=True).start()

    def work(self):
        try:
            while True:
                self.join(self.it.accept()[0])
        except OSError:
            pass

    def join(self, page):
        try:
            desk = socket.create_connection(self.where, timeout=20)
        except OSError:
            return page.close()
        desk.settimeout(None)
        for ends in ((page, desk, True), (desk, page, False)):
            threading.Thread(target=self.carry, args=ends, daemon=True).start()

    def carry(self, one, other, is_for_desk):
        try:
            while piece := one.recv(1 << 20):
                self.goes_on.wait()
                self.read[is_for_desk] += piece
                other.sendall(self.alters(piece, is_for_desk))
            other.shutdown(socket.SHUT_WR)
        except OSError:
            pass

    def end(self):
        self.it.close()
