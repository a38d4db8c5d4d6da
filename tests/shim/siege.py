"""Ill clients at a station's page, until standard input ends: those that ask for nothing, those that ask slowly, those that watch
and never read, and those that send garbage. Who is let go comes again. It prints a line once all came, and at the end how often they did.

usage: siege.py HOST PORT COUNT
"""
import os, random, select, socket, sys, time

sys.dont_write_bytecode = True
SOON = 0.1
JUNK = [b"\r\n" * 3000, b"GET " * 2000, b"\x16\x03\x01" + bytes(600), b"G" * 6000, b"POST /line HTTP/1.1\r\nContent-Length: 9\r\n\r\n"]


class Client:
    """One of them. Each fourth is of the same kind."""

    def __init__(self, number, place):
        self.kind, self.place, self.it, self.due = number % 4, place, None, time.time() + SOON * random.random()
        self.left = f"GET / HTTP/1.1\r\nHost: {place[0]}:{place[1]}\r\n\r\n".encode()

    def come(self):
        self.it = socket.socket()
        self.it.setblocking(False)
        if self.kind == 2:
            self.it.setsockopt(socket.SOL_SOCKET, socket.SO_RCVBUF, 2048)
        self.it.connect_ex(self.place)

    def say(self):
        """Sends what is next of it."""
        if self.kind == 1:
            self.it.send(self.left[:1])
            self.left, self.due = self.left[1:], time.time() + 3
        elif self.kind == 2:
            self.it.send(self.left.replace(b"GET /", b"GET /events"))
        elif self.kind == 3:
            self.it.send(random.choice([*JUNK, os.urandom(3000)]))

    def leave(self):
        self.it.close()
        self.__init__(self.kind, self.place)
        self.due += SOON


class Siege:
    """All of them."""

    def __init__(self, place, count):
        self.clients, self.poll, self.here, self.came = [Client(it, place) for it in range(count)], select.poll(), {}, 0
        self.poll.register(sys.stdin, select.POLLIN)

    def admit(self, client):
        client.come()
        client.due, self.came = float("inf"), self.came + 1
        self.here[client.it.fileno()] = client
        self.poll.register(client.it, select.POLLOUT | select.POLLRDHUP)

    def see(self, client, what):
        """One is connected, or let go."""
        try:
            if what & (select.POLLRDHUP | select.POLLERR | select.POLLHUP):
                raise ConnectionResetError
            self.poll.modify(client.it, select.POLLRDHUP)
            client.say()
        except OSError:
            self.here.pop(client.it.fileno())
            self.poll.unregister(client.it)
            client.leave()

    def turn(self):
        """Does what is due, and tells whether to go on."""
        for client in self.clients:
            if client.due < time.time():
                client.due = float("inf")
                self.admit(client) if client.it is None else self.see(client, 0)
        for file, what in self.poll.poll(20):
            if file == sys.stdin.fileno():
                return False
            self.see(self.here[file], what)
        return True


siege = Siege((sys.argv[1], int(sys.argv[2])), int(sys.argv[3]))
while siege.came < len(siege.clients) and siege.turn():
    pass
print("there", flush=True)
while siege.turn():
    pass
print(siege.came)
