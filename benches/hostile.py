"""Clients that do harm to a served room: the kinds that the tests of pages and of late readers know, all at a time.

None gives a command, and none takes a page's seat. They come again and again, in one process that ends by itself."""
import random
import selectors
import socket
import struct
import time

from tests.serving.test_hostile_requests import damaged, hostile_heads, hostile_lines, large_heads, requests_to

# How many there are, and how many of them are at the consoles' port.
CLIENTS = 200
AT_CONSOLES = 20
# All others are at one page for so many seconds, and then at the next one; but for every third, which is at any.
TURN = 20
# How long, in seconds, a client stays: at least, and at most. So some 130 come each second.
STAYS = 0.3, 3.0
# How long the loop waits for what the clients may send or read, in seconds.
PAUSE = 0.05
# A close with this option is a reset.
RESET = struct.pack("ii", 1, 0)


class Client:
    """A connection that sends these bytes, reads or doesn't, and ends by a close or a reset."""

    def __init__(self, chance, port, sent, reads=True, resets=False):
        self.socket = socket.socket()
        self.socket.setblocking(False)
        if not reads:
            self.socket.setsockopt(socket.SOL_SOCKET, socket.SO_RCVBUF, 1)
        if resets:
            self.socket.setsockopt(socket.SOL_SOCKET, socket.SO_LINGER, RESET)
        self.socket.connect_ex(("127.0.0.1", port))
        self.rest, self.reads = sent, reads
        self.late = time.monotonic() + chance.uniform(*STAYS)

    def wanted(self):
        """What it waits for: 0 for nothing any more."""
        return (selectors.EVENT_WRITE if self.rest else 0) | (selectors.EVENT_READ if self.reads else 0)

    def go_on(self, events):
        """Sends and reads what it can; what fails isn't tried again."""
        try:
            if events & selectors.EVENT_WRITE:
                self.rest = self.rest[self.socket.send(self.rest):]
            if events & selectors.EVENT_READ and not self.socket.recv(1 << 16):
                self.reads = False
        except BlockingIOError:
            pass
        except OSError:
            self.rest, self.reads = b"", False


def console_client(chance, port):
    """A client at the consoles' port. None sends a command: the journal has those of the good clients alone."""
    noise = bytes(chance.randrange(128, 256) for _ in range(200))
    sent, reads, resets = chance.choice([
        (b"", True, False), (b"", True, True), (b"EXAM", True, True), (noise, False, True),
        (noise + b"\n" + noise, True, False), (100_000 * b"A", True, True), (2_000 * b"GLANCE 9999\n", False, True),
        (b"QUIT\n" + 9_000 * b"x", True, False), (2_000 * b"\xff\n", True, False)])
    return Client(chance, port, sent, reads, resets)


def page_client(chance, port):
    """A client at a page's port. None has the page's own origin and a number that its seat can have made."""
    document, _, line, chunks = (each.encode() for each in requests_to(port))
    picture = f"GET /picture?core=0&paper=0 HTTP/1.1\r\nHost: 127.0.0.1:{port}\r\n\r\n".encode()
    kind = chance.randrange(8)
    if kind == 0:
        sent = chance.choice([b"", b"G", b"\r\n", document[:20], line[:-1]])
        return Client(chance, port, sent, resets=chance.random() < 0.5)
    if kind == 1:
        return Client(chance, port, chance.choice([document, picture]), reads=False, resets=chance.random() < 0.5)
    if kind == 2:
        return Client(chance, port, chance.choice([document, picture, line, chunks]))
    if kind == 3:
        _, sent, _ = chance.choice([*hostile_heads(port), *hostile_lines(port), *large_heads(port)])
        return Client(chance, port, sent.encode("latin-1"))
    sent = damaged(chance, chance.choice([document, picture, line, chunks]))
    return Client(chance, port, sent if b": 777777\r\n" in sent or b"/line" not in sent else line)


def next_client(chance, first_page, seats, console_port, begun, place):
    """The client that comes to this place among all of them."""
    if place < AT_CONSOLES:
        return console_client(chance, console_port)
    turn = int((time.monotonic() - begun) / TURN) % seats
    return page_client(chance, first_page + (turn if place % 3 else chance.randrange(seats)))


def attack(first_page, seats, console_port, seconds, seed):
    """Does harm for this long."""
    chance, begun = random.Random(seed), time.monotonic()
    clients = [None] * CLIENTS
    with selectors.DefaultSelector() as selector:
        while (now := time.monotonic()) < begun + seconds:
            for place, client in enumerate(clients):
                if client and client.late < now:
                    leave(selector, client)
                    clients[place] = client = None
                if not client:
                    clients[place] = client = next_client(chance, first_page, seats, console_port, begun, place)
                    client.waits_for = 0
                watch(selector, client)
            for key, events in selector.select(PAUSE):
                key.data.go_on(events)
            time.sleep(PAUSE)
        for client in clients:
            leave(selector, client)


def watch(selector, client):
    """Lets the selector wait for what a client wants."""
    wanted, before = client.wanted(), client.waits_for
    if wanted == before:
        return
    client.waits_for = wanted
    if not before:
        selector.register(client.socket, wanted, client)
    elif wanted:
        selector.modify(client.socket, wanted, client)
    else:
        selector.unregister(client.socket)


def leave(selector, client):
    """Ends a client's connection."""
    if client.waits_for:
        selector.unregister(client.socket)
    client.socket.close()
