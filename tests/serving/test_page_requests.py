"""The page of a seat by HTTP: what a request is answered, which lines are refused, and how many commands that makes."""
import base64
import hashlib
import re
import time
import unittest

from tests.support import (EXAMPLES, PAGE, TOP, ProgramTest, Requests, body, field, run, status)

# How many connections stay silent while a request is answered. A page waits a second for each: a reply would come after
# so many seconds if it waited for one after the other.
SILENT = 60
# One request of this many may have to be made again, at most.
SILENCES = 100


def policy():
    """What the browser may do with the page: its own script and style alone, and nothing from elsewhere."""
    hashes = []
    for tag in "script", "style":
        text = re.search(f"<{tag}>(.*?)</{tag}>".encode(), PAGE, re.DOTALL)[1]
        hashes.append(f"'sha256-{base64.b64encode(hashlib.sha256(text).digest()).decode()}'")
    return (f"default-src 'none'; script-src {hashes[0]}; style-src {hashes[1]}; img-src data:; connect-src 'self'; "
            "form-action 'none'; base-uri 'none'; frame-ancestors 'none'")


# The registers of a new machine, and its picture at seat 2 after a command of seat 3.
NEW_REGISTERS = ("I=00000 A=00000 B=00000 UNEQUAL=0 LOW=0 HIGH=0 OVERFLOW=0 SWITCHES=------- HOPPER=000 STACKER=000 "
                 "PAPER=000 FORM=0001 LINE=01\n")
BLANK_ROW = " " * 40 + "\n"
NEW_MACHINE = (f"SEAT 2 OF 3 MADE 0\nAFTER 1\n{NEW_REGISTERS}NEXT\nREAD \nHOPPER\nPUNCHED\nCORE 00400 OF 04000\n"
               f"{15 * BLANK_ROW}PAPER 0\n")
# What has a card read and one punched, and a line printed, and stops before an addition; and the picture then.
BEFORE_AN_ADDITION = ("FEED CARD ONE", "FEED CARD TWO", "DEPOSIT 0001 ~X", "DEPOSIT 0101 TOTAL 12",
                      "DEPOSIT 0201 HELLO", "DEPOSIT 0400 ~1~4~2~A700710~.", "START 0400", "RUN 3")
ADDITION = ("SEAT 2 OF 3 MADE 8\nAFTER 9\nI=00403 A=00000 B=00333 UNEQUAL=0 LOW=0 HIGH=0 OVERFLOW=0 SWITCHES=------- "
            "HOPPER=001 STACKER=001 PAPER=001 FORM=0001 LINE=02\nNEXT A    700,710\nREAD CARD ONE\nHOPPER CARD TWO\n"
            f"PUNCHED TOTAL 12\nCORE 00400 OF 04000\n~1~4~2~A700710~.{29 * ' '}\n{14 * BLANK_ROW}PAPER 0\n"
            "LINE 0001 01 HELLO\n")
# What punches 70 cards and prints as many lines, and then punches another card. The card that is read next is blank,
# and the character at 403 has no word mark.
LONG_PAPER = ("FEED", "FEED CARD TWO", "DEPOSIT 0101 FIRST", "DEPOSIT 0201 X", "DEPOSIT 0400 ~4~2~B400", "START 0400",
              "RUN 210", "DEPOSIT 0101 LAST ", "RUN 1", "START 0403")


def long_paper(paper, lines_of_first, lines_of_second):
    """The picture then, with its paper from a line on, and the lines that it has of two forms."""
    printed = "".join(f"LINE 0001 {line:02} X\n" for line in lines_of_first)
    printed += "".join(f"LINE 0002 {line:02} X\n" for line in lines_of_second)
    return ("SEAT 2 OF 3 MADE 10\nAFTER 11\nI=00403 A=00400 B=00181 UNEQUAL=0 LOW=0 HIGH=0 OVERFLOW=0 SWITCHES=------- "
            "HOPPER=002 STACKER=071 PAPER=070 FORM=0002 LINE=05\nNEXT\nREAD \nHOPPER \nPUNCHED LAST\n"
            f"CORE 00390 OF 04000\n{10 * ' '}~4~2~B400{24 * ' '}\n{14 * BLANK_ROW}PAPER {paper}\n{printed}")


# What is given at seat 2 of a new room, and the pictures there, each by its window and its paper.
PICTURES = (
    ("a new machine", (), {(400, 0): NEW_MACHINE}),
    ("a machine before an addition", BEFORE_AN_ADDITION, {(400, 0): ADDITION}),
    ("a machine with 70 printed lines", LONG_PAPER, {
        (390, 0): long_paper(0, range(1, 67), ()),
        (390, 3): long_paper(3, range(4, 67), range(1, 4)),
        (390, 10): long_paper(10, range(11, 67), range(1, 5)),
        (390, 69): long_paper(69, (), [4]),
        (390, 500): long_paper(500, (), ()),
    }),
)


class PageTest(ProgramTest):
    """Tests of a room with pages, without consoles."""

    def setUp(self):
        self.requests, self.silences = Requests.made, Requests.silent

    def tearDown(self):
        """Hardly a request had to be made again."""
        silent, made = Requests.silent - self.silences, Requests.made - self.requests
        self.assertLessEqual(silent * SILENCES, made + SILENCES, f"{silent} of {made} requests had no response")

    def pages(self, seats):
        """A room with a page for each seat."""
        return self.room("serve", seats=seats, pages=True, consoles=False)


class Document(PageTest):
    """The page itself."""

    def test_it_is_the_file_in_page(self):
        """Its policy allows its own script and style alone."""
        response = self.pages(2).get(1, "/")
        self.same("it is served", status(response), 200)
        self.same("to the byte", body(response), PAGE)
        for name, value in [("content-security-policy", policy()), ("content-type", "text/html; charset=utf-8"),
                            ("x-content-type-options", "nosniff"), ("referrer-policy", "no-referrer"),
                            ("cache-control", "no-store"),
                            ("connection", "close"), ("content-length", str(len(PAGE)))]:
            self.same(f"its field {name}", field(response, name), value)

    def test_the_program_has_the_file(self):
        ran = run([TOP / "page/embed", "--check"])
        self.check("page/embed --check", "" if ran.returncode == 0 else ran.stderr.decode())

    def test_it_asks_for_nothing_from_elsewhere(self):
        outside = re.findall(rb"""(?:src|href)=["'](?!data:|#)[^"']*|url\((?!data:)|@import""", PAGE)
        self.assertEqual([], outside)

    def test_its_deck_is_an_example(self):
        listing = (EXAMPLES / "listing.deck").read_text().splitlines()
        samples = re.search(rb"const LISTING=\[(.*?)\];", PAGE, re.DOTALL)[1].decode()
        cards = [card.rstrip() for card in re.findall(r"'([^']*)'", samples)]
        self.assertEqual([card.rstrip() for card in listing], cards)


class Routes(PageTest):
    """A request of each route, and what it is answered from its first bytes on."""

    def test_each_route(self):
        room = self.pages(3)
        text = "HTTP/1.1 200 OK\r\ncontent-type: text/plain; charset=utf-8\r\n"
        page = f"HTTP/1.1 200 OK\r\ncontent-type: text/html; charset=utf-8\r\ncontent-security-policy: {policy()}\r\n"
        none_new = "HTTP/1.1 204 No Content\r\n"
        for name, response, first, last in [
            ("the page", room.get(2, "/"), page, b"\r\n\r\n" + PAGE),
            ("a line", room.post(2, "DEPOSIT 0401 ~K", 0), text, "\r\n\r\nOK\n"),
            ("a picture", room.get(2, "/picture?core=0400&paper=0"), text, "PAPER 0\n"),
            ("none is new", room.get(2, "/picture?core=0400&paper=0&after=1"), none_new, "\r\n\r\n"),
            ("one is new", room.get(2, "/picture?core=0400&paper=0&after=0"), text, "PAPER 0\n"),
            ("a run", room.post(2, "RUN 10", 1), text, "\r\n\r\nSTOP 06 NOMARK STEPS 0 I 00000\n"),
            ("an empty line", room.post(2, "", 2), text, "\r\n\r\n"),
        ]:
            self.within(name, response, first, last)
        self.same("two of these are commands", room.made(2), 2)
        self.ended(room, "the room", 2)


# Queries that name a picture of a new machine, a window outside core, or none.
QUERIES = (
    (200, "core=0&paper=0"),
    (200, "core=3400&paper=0"),
    (200, "core=3400&paper=500"),
    (200, "core=000000400&paper=000000500&after=999999999"),
    (200, "core=400&paper=0&after=1"),
    (204, "core=400&paper=0&after=0"),
    (404, "core=3401&paper=0"),
    (404, "core=4000&paper=0"),
    (404, "core=15999&paper=0"),
    (400, ""),
    (400, "core=400"),
    (400, "core=400&after=1"),
    (400, "paper=0"),
    (400, "paper=0&core=400"),
    (400, "core=400&after=1&paper=0"),
    (400, "core=16000&paper=0"),
    (400, "core=400&paper=501"),
    (400, "core&paper=0"),
    (400, "core=&paper=0"),
    (400, "core=400&paper="),
    (400, "core=400&paper=0&after="),
    (400, "core=0000000400&paper=0"),
    (400, "core=0000000000&paper=0"),
    (400, "core=400&paper=0000000000"),
    (400, "core=400&paper=0&after=0000000001"),
    (400, "core=x&paper=0"),
    (400, "core=4x0&paper=0"),
    (400, "core=-1&paper=0"),
    (400, "core=400&paper=-1"),
    (400, "core=400&paper=0&after=x"),
    (400, "core=+400&paper=0"),
    (400, "Core=400&paper=0"),
    (400, "core=400&papers=0"),
    (400, "core=400&paper=0&before=1"),
    (400, "core=400;paper=0"),
    (400, "core=400&paper=0&"),
    (400, "core=400&paper=0&&after=1"),
    (400, "core=400&paper=0&after=1&"),
    (400, "core=400&paper=0&after=1&after=1"),
    (400, "core=400&paper=0&after=1%20"),
    (400, "core=400&paper=%30"),
)


class Pictures(PageTest):
    """What a page sees of the machine."""

    def test_queries(self):
        """A query says a window and perhaps a count: it is answered by a picture, or by its status and no body."""
        room = self.pages(3)
        for wanted, query in QUERIES:
            last = "\n" if wanted == 200 else "\r\n\r\n"
            self.within(f"{wanted} for {query!r}", room.get(2, f"/picture?{query}"), f"HTTP/1.1 {wanted} ", last)
        self.refused("400 for no query at all", room.get(2, "/picture"), "1.1 400")
        self.same("a picture is no command", room.made(2), 0)
        self.ended(room, "the room", 0)

    def test_whole_texts(self):
        """They are seen at the second of three seats, after a command of the third."""
        for name, given, texts in PICTURES:
            room = self.pages(3)
            self.same(f"{name}: seat 3 begins", body(room.post(3, "REGS", 0)), NEW_REGISTERS)
            for count, line in enumerate(given):
                self.within(f"{name}: {line}", room.post(2, line, count), "HTTP/1.1 200 ", "")
            for (core, paper), text in texts.items():
                response = room.get(2, f"/picture?core={core}&paper={paper}")
                self.within(f"{name}: from {core} and line {paper} on", response, "HTTP/1.1 200 ", f"\r\n\r\n{text}")
            self.same(f"{name}: the seat's commands", room.made(2), len(given))
            self.ended(room, f"{name}: the room", len(given) + 1)


class Elsewhere(PageTest):
    """A request for another host is refused, and hears where the page is."""

    def test_localhost(self):
        room = self.pages(2)
        for seat in 1, 2:
            for path in "/", "/picture?core=0&paper=0", "/nothing":
                response = room.get(seat, path, Host=f"localhost:{room.page + seat - 1}")
                self.refused(f"seat {seat}, {path}", response, "1.1 403", f"this page is at {room.address(seat)}/\n")
                self.same(f"seat {seat}, {path}: its type", field(response, "content-type"), "text/plain; charset=utf-8")
        self.same("by another method", room.ask(1, "PUT", "/", "", {"Host": "localhost"}), (403, room.elsewhere().encode()))


class Lines(PageTest):
    """Lines that a page sends."""

    def test_replies_and_which_lines_are_commands(self):
        room = self.pages(2)
        for line, reply, counts in [
            ("DEPOSIT 0700 ~ABC", "OK\n", 1), ("EXAMINE 0700 3", "~ABC\n", 1),
            ("EXAMINE 4000", "REFUSED 1 ADDRESS\n", 1), ("LINE", "REFUSED 4 EMPTY\n", 1),
            ("GLANCE 0700", "AFTER {} ~A\n", 0), ("HELLO", "ERROR 1 WORD\n", 0), ("", "", 0), ("   ", "", 0),
            ("QUIT", "BYE\n", 0), ("EXAMINE 0701", "B\n", 1), ("X" * 201, "ERROR 4 LENGTH\n", 0),
            ("EXAMINE 0702\r", "ERROR 2 NUMBER\n", 0), ("EXAMINE 0700 3", "~ABC\n", 1),
        ]:
            count = room.made()
            response, name = room.post(1, line, count), repr(line[:20])
            self.same(f"{name}: its status", status(response), 200)
            self.same(f"{name}: its reply", body(response), reply.format(room.after()))
            self.same(f"{name}: the commands", room.made() - count, counts)

    def test_two_seats(self):
        room = self.pages(2)
        room.post(1, "DEPOSIT 0700 ~A", 0)
        self.same("another seat has its own count", body(room.post(2, "FEED A CARD", 0)), "OK\n")
        self.same("and sees the same machine", body(room.post(2, "EXAMINE 0700", 1)), "~A\n")
        shown = body(room.get(1, "/picture?core=0&paper=0"))
        self.check("a picture shows the next card", "" if b"\nHOPPER A CARD\n" in shown else f"{shown[:400]}")

    def test_lines_that_are_not_carried_out(self):
        """They don't come from the page, or don't go on from the seat's count."""
        room = self.pages(2)
        room.post(1, "START 2", 0)
        port, count, before, line = room.page, room.made(), room.after(), "START 1"
        for name, made, fields, wanted in [
            ("a count from before", count - 1, {}, 409),
            ("a count to come", count + 1, {}, 409),
            ("no count", None, {}, 409),
            ("a count that is no number", "x", {}, 409),
            ("a foreign page", count, {"Origin": "http://museum.example"}, 403),
            ("the page of another seat", count, {"Origin": room.address(2)}, 403),
            ("no origin", count, {"Origin": None}, 403),
            ("the null origin", count, {"Origin": "null"}, 403),
            ("https", count, {"Origin": f"https://127.0.0.1:{port}"}, 403),
            ("the origin localhost", count, {"Origin": f"http://localhost:{port}"}, 403),
        ]:
            self.refused(name, room.post(1, line, made, **fields), f"1.1 {wanted}")
        for host in "museum.example", f"museum.example:{port}", f"localhost:{port}", f"127.0.0.1:{port + 1}":
            self.refused(f"for {host}", room.post(1, line, count, Host=host), "1.1 403", room.elsewhere())
        self.refused("a line of more than 1,024 bytes", room.post(1, "X" * 1_025, count), "1.1 413")
        self.unchanged("they leave the machine as it was", room, before)
        self.same("and the seat's count", room.made(), count)

    def test_a_line_that_comes_again(self):
        room = self.pages(2)
        room.post(1, "START 2", 0)
        self.within("a line that goes on is taken", room.post(1, "START 1", 1), "HTTP/1.1 200 ", "\r\n\r\nOK\n")
        self.refused("and refused when it comes again", room.post(1, "START 1", 1), "1.1 409")
        self.within("QUIT goes on from it", room.post(1, "QUIT", 2), "HTTP/1.1 200 ", "\r\n\r\nBYE\n")
        self.same("and is no command", room.made(), 2)
        self.same("the page is served after that", status(room.get(1, "/")), 200)
        self.ended(room, "the room", room.after())


class Silent(PageTest):
    """Connections that send nothing, or half a request, keep nobody waiting."""

    def test_a_picture_is_answered(self):
        room = self.pages(2)
        since = time.monotonic()
        silent = [room.connect() for _ in range(SILENT)]
        response = room.get(1, "/picture?core=0&paper=0")
        took = time.monotonic() - since
        self.same(f"with {SILENT} silent connections", status(response), 200)
        self.check("before it could have waited for each", "" if took < SILENT else f"it took {took:.1f} s")
        begun = room.connect()
        begun.sendall(b"GET /picture HTTP/1.1\r\nHo")
        self.same("with half a request", status(room.get(1, "/picture?core=0&paper=0")), 200)
        for connection in [*silent, begun]:
            connection.close()


if __name__ == "__main__":
    unittest.main()
