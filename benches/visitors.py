"""Clients that do what is asked for, at the consoles and the pages of a served room: each has a region of core storage
of its own, and a history of what it was answered."""
import random
import re
import threading
import time

from histories import ENDED, PERHAPS
from tests.support import body, exchange, head, status

SEATS = 8
# How long, in seconds, a console waits between its lines; how long those that come back stay, and are away.
CONSOLE_PAUSE = 0.6
STAYS, AWAY = (20, 90), (1, 5)
# How long a page's visitor stays, and is away: longer than the minute after which a console may have the seat.
VISITS, ABSENCES = (40, 120), (62, 100)
PICTURE_PAUSE = 0.25
# How long a page holds the machine, and how rarely: at one of so many turns at which it gives lines.
HOLDS, SELDOM = (2, 8), 30
# How long it is from one new room to the next, and until a page that was kept off from asking asks again.
RENEWED, KEPT_OFF = 30, 1
# How long a client waits that finds no seat, or is asked to come again.
FULL_PAUSE = 0.5
SEED = 1401
# What is counted of a minute: of the good clients what was answered, of consoles that found no seat, of requests that
# were to come again or had no answer, of new rooms, of holds, and of lines that a hold kept off.
COUNTED = "pictures", "lines", "full", "reset", "busy", "silent", "rooms", "holds", "held"


class Figures:
    """What is counted and measured from one minute to the next, and what was lost from the beginning on."""

    def __init__(self):
        self.lock = threading.Lock()
        self.lost = []
        self.begin()

    def begin(self):
        """Begins a new minute."""
        self.most = dict.fromkeys(["memory", "handles", "threads", "request", "line"], 0)
        self.counts = dict.fromkeys(COUNTED, 0)

    def reach(self, name, value):
        """A value of this minute: the largest stays."""
        with self.lock:
            self.most[name] = max(self.most[name], value)

    def count(self, name, many=1):
        """So many more of these."""
        with self.lock:
            self.counts[name] += many

    def lose(self, what):
        """Something was lost."""
        with self.lock:
            self.lost.append(what)


def say(console, lines):
    """Sends lines, and returns as many replies, or those until the connection ends."""
    replies = b""
    try:
        console.sendall("".join(f"{line}\n" for line in lines).encode())
    except OSError:
        pass
    try:
        while replies.count(b"\n") < len(lines) and (more := console.recv(1 << 16)):
            replies += more
    except OSError:
        pass
    return replies.decode("latin-1")


class Client(threading.Thread):
    """A good client with a region of its own, whose commands nobody else gives; its history is what was answered."""

    def __init__(self, number, server, figures, ends):
        super().__init__(daemon=True)
        self.region, self.server, self.figures, self.ends = f"{1000 + 20 * number}", server, figures, ends
        self.chance, self.history, self.serial = random.Random(f"{SEED} {number}"), [], 0
        self.name = f"client {number}"

    def next_pair(self):
        """Two lines, and the replies that they must have."""
        self.serial += 1
        text = f"{self.serial:08}"
        return [(f"DEPOSIT {self.region} {text}", "OK"), (f"EXAMINE {self.region} 8", text)]

    def keep(self, line, reply, wanted):
        """A line that was answered, and what it had to be answered. A reply may be unknown (None)."""
        self.history.append((line, reply))
        if reply not in (None, wanted):
            self.figures.lose(f"{self.name}: {line} was answered {reply}, not {wanted}")

    def is_over(self):
        """Whether the room is being closed."""
        return self.ends.is_set()


class ConsoleClient(Client):
    """An operator at a console, who stays to the end or comes back again and again."""

    def __init__(self, number, *rest, stays):
        super().__init__(number, *rest)
        self.stays = stays

    def run(self):
        while not self.is_over():
            late = float("inf") if self.stays else time.monotonic() + self.chance.uniform(*STAYS)
            try:
                with self.server.console() as console:
                    seated = self.sit(console, late)
            except ConnectionRefusedError:
                # No room listens until the next one does.
                seated = False
            self.ends.wait(self.chance.uniform(*AWAY) if seated else FULL_PAUSE)

    def sit(self, console, late):
        """Gives lines until it is late, and then QUIT. Returns whether there was a seat."""
        seated = False
        while time.monotonic() < late or self.is_over():
            asked = self.next_pair() + (self.next_pair() if self.chance.random() < 0.1 else [])
            begun = time.monotonic()
            replies = say(console, [line for line, _ in asked])
            self.figures.reach("line", time.monotonic() - begun)
            if not seated and not replies.startswith("OK\n"):
                # The close is a reset where FULL wasn't read before it.
                self.figures.count("full" if replies == "FULL\n" else "reset")
                return False
            seated = True
            found = replies.split("\n")[:-1]
            for (line, wanted), reply in zip(asked, found):
                self.keep(line, reply, wanted)
            self.figures.count("lines", len(found))
            if len(found) < len(asked):
                self.end_early(replies)
                return True
            time.sleep(CONSOLE_PAUSE * len(asked) / 2)
        self.quit(console)
        return True

    def end_early(self, replies):
        """The connection has ended before the last reply: that is right only where the room has."""
        self.history.append((ENDED, None))
        if not (replies.endswith("\n") or not replies):
            self.figures.lose(f"{self.name}: the connection ended after {replies[-100:]!r}")

    def quit(self, console):
        """Ends the console by QUIT, with its reply and the end."""
        reply = say(console, ["QUIT"])
        if reply == "":
            self.history.append((ENDED, None))
        elif reply != "BYE\n":
            self.figures.lose(f"{self.name}: QUIT was answered {reply!r}")


class PageClient(Client):
    """A visitor at the page of a seat, who comes and goes."""

    def __init__(self, number, seat, *rest):
        super().__init__(number, *rest)
        self.seat, self.port, self.turn = seat, self.server.page + seat - 1, 0
        # What the last picture said of the room, and until when the page holds its machine.
        self.room, self.made, self.after, self.held = "", None, None, None

    def run(self):
        visit = self.chance.uniform(0, VISITS[1])
        while not self.is_over():
            late, visit = time.monotonic() + visit, self.chance.uniform(*VISITS)
            while time.monotonic() < late and not self.is_over():
                begun = time.monotonic()
                self.look()
                self.turn += 1
                if self.made is not None and self.turn % 4 == 0:
                    self.hold()
                    self.give()
                self.ends.wait(max(0.0, begun + PICTURE_PAUSE - time.monotonic()))
            self.made = self.after = self.held = None
            self.ends.wait(self.chance.uniform(*ABSENCES))

    def hold(self):
        """Holds the machine at times, and lets others go on after some seconds."""
        if self.held is not None and time.monotonic() > self.held:
            self.held = None
            self.ask("POST /release")
        elif self.held is None and self.chance.randrange(SELDOM) == 0:
            answer, text = self.ask("POST /hold")
            if answer == 200 and text.startswith(f"HOLD {self.seat} "):
                self.held = time.monotonic() + self.chance.uniform(*HOLDS)
                self.figures.count("holds")

    def ask(self, first, text="", **fields):
        """A request, which is made again while nothing comes back or it is asked to; its status and its body. A line
        that nothing came back for isn't given again."""
        own = {"Host": f"127.0.0.1:{self.port}", "Origin": f"http://127.0.0.1:{self.port}", **fields}
        request = (head(first, own | ({"Content_Length": len(text)} if text else {})) + text).encode()
        begun = time.monotonic()
        while True:
            response = exchange(self.port, request)
            again = not response and not text or b"\r\nretry-after: 1\r\n" in response
            if not again or self.is_over():
                break
            self.figures.count("busy" if response else "silent")
            time.sleep(PICTURE_PAUSE / 4)
        self.figures.reach("request", time.monotonic() - begun)
        return status(response), body(response).decode("latin-1").removesuffix("\n")

    def look(self):
        """Asks for a picture, and notes what the seat has made; nothing if a console sits there."""
        since = "" if self.after is None else f"&after={self.after}"
        answer, text = self.ask(f"GET /picture?room={self.room}&core={self.region}&paper=0{since}")
        self.figures.count("pictures")
        if answer == 200:
            self.room = re.search(r"^ROOM (\w+)$", text, re.M)[1]
            self.made = int(re.search(r"^SEAT \d+ OF \d+ MADE (\d+)$", text, re.M)[1])
            self.after = int(re.search(r"^AFTER (\d+)$", text, re.M)[1])
        elif answer == 503:
            self.made = self.after = None
        elif answer not in (204, 410) and not self.is_over():
            self.figures.lose(f"{self.name}: a picture was answered {answer} {text[:80]!r}")

    def give(self):
        """Gives a pair of lines, as long as the seat is the page's, the room goes on, and no other page holds it."""
        for line, wanted in self.next_pair():
            before = self.made
            answer, text = self.ask("POST /line", line, X_1401_Line=before, X_1401_Room=self.room)
            if answer == 200:
                self.made = before + 1
                self.keep(line, text, wanted)
                self.figures.count("lines")
                continue
            if answer == 423 and text.startswith("HOLD "):
                self.figures.count("held")
            elif answer in (409, 410, 503):
                self.made = self.after = None
            elif answer == b"" or self.is_over():
                self.find_out(line, before)
            else:
                self.figures.lose(f"{self.name}: {line} was answered {answer} {text[:80]!r}")
            return

    def find_out(self, line, before):
        """Nothing came back: the next picture says whether the line was carried out, if it is one of the same room."""
        self.figures.count("silent")
        room, self.made, self.after = self.room, None, None
        if not self.is_over():
            self.look()
        if self.made is None or self.room != room:
            self.history.append((line, PERHAPS))
        elif self.made == before + 1:
            self.keep(line, None, None)


class Renewer(threading.Thread):
    """Asks for a new room again and again, as the page of any seat."""

    def __init__(self, server, figures, ends):
        super().__init__(daemon=True)
        self.server, self.figures, self.ends, self.chance = server, figures, ends, random.Random(SEED)

    def run(self):
        pause = RENEWED / 2
        while not self.ends.wait(pause):
            seat = self.chance.randint(1, SEATS)
            fields = {"Host": f"127.0.0.1:{self.server.page + seat - 1}", "Origin": self.server.address(seat)}
            answer = status(exchange(self.server.page + seat - 1, head("POST /renewal", fields).encode()))
            self.figures.count("rooms", answer == 200)
            pause = RENEWED if answer == 200 else KEPT_OFF
