"""Many lines in one request to a page, and rooms that are known by their names."""
import re
import unittest

from tests.support import body, status
from tests.serving.test_page_requests import PageTest

LOOP = "DEPOSIT 0001 ~B001\nSTART 1\n"
# The lines of a request, its replies, and how many commands were carried out.
REQUESTS = (
    ("one line", "FEED A", "OK\n", 1),
    ("a line feed at the end", "FEED A\n", "OK\n", 1),
    ("several lines", "FEED A\nSWITCH A ON\nLOAD", "OK\nOK\nOK\n", 3),
    ("a run comes last", f"{LOOP}RUN 3\nFEED A", "OK\nOK\nSTOP 01 LIMIT STEPS 3 I 00001\n", 3),
    ("a command that is refused", "FEED A\nCARD\nFEED B", "OK\nREFUSED 4 EMPTY\n", 2),
    ("a fault of a line", "FEED A\nFOOD B\nFEED C", "OK\nERROR 1 WORD\n", 1),
    ("a carriage return", "FEED A\r\nFEED B", "ERROR 3 GRAPHIC\n", 0),
    ("a line of more than 200 bytes", f"FEED A\nFEED {'B' * 196}\nFEED C", "OK\nERROR 4 LENGTH\n", 1),
    ("an empty line", "FEED A\n\nFEED B", "OK\n", 1),
    ("nothing", "", "", 0),
    ("QUIT", "FEED A\nQUIT\nFEED B", "OK\nBYE\n", 1),
    ("a glance", "GLANCE 0\nFEED B", "AFTER 0  \n", 0),
    ("cells that are shown", "DEPOSIT 0001 A\nEXAMINE 0001\nFEED B", "OK\nA\n", 2),
)
NAME = re.compile(rb"ROOM ([0-9A-F]{16})\n")


class ManyLines(PageTest):
    """The lines of a request are carried out in turn, up to the first whose reply doesn't go on."""

    def lines(self, room, text, count, seat=1, **fields):
        """The response to lines that go on from this number of commands."""
        return room.post(seat, text, count, "/lines", **fields)

    def test_replies(self):
        for name, lines, replies, commands in REQUESTS:
            room = self.pages(1)
            response = self.lines(room, lines, 0)
            self.within(name, response, "HTTP/1.1 200 ", f"\r\n\r\n{replies}")
            self.same(f"{name}: commands", (room.made(), room.after()), (commands, commands))
            self.ended(room, f"{name}: entries of the journal", commands)

    def test_a_hopper_that_is_full(self):
        """No card is fed after a refusal."""
        room = self.pages(2)
        for count in 0, 150, 300:
            self.same(f"from card {count} on", body(self.lines(room, "\n".join(["FEED A"] * 150), count)), 150 * "OK\n")
        full = self.lines(room, "\n".join(f"FEED {n}" for n in range(60)), 450)
        self.same("50 of 60 are fed, and one is refused", body(full), 50 * "OK\n" + "REFUSED 2 HOPPER\n")
        self.same("commands", room.made(), 501)

    def test_what_is_taken(self):
        """Printed lines and cards come in the order in which they were made."""
        room = self.pages(1)
        program = "DEPOSIT 0201 A\nDEPOSIT 0101 A\nDEPOSIT 0001 ~4~2~B001\nSTART 1\nRUN 9"
        self.same("three of each are made", body(self.lines(room, program, 0))[:19], "OK\n" * 4 + "STOP 01")
        taken = "\n".join(["LINE"] * 3 + ["CARD"] * 4)
        replies = "".join(f"LINE 0001 0{n} A\n" for n in (1, 2, 3)) + 3 * "CARD A\n" + "REFUSED 4 EMPTY\n"
        self.same("and taken", body(self.lines(room, taken, 5)), replies)

    def test_lines_that_are_refused(self):
        room = self.pages(2)
        room.post(1, "START 2", 0)
        before = room.after()
        for name, count, fields, wanted in [
            ("a count from before", 0, {}, 409),
            ("a count to come", 2, {}, 409),
            ("no count", None, {}, 409),
            ("the page of another seat", 1, {"Origin": room.address(2)}, 403),
            ("no origin", 1, {"Origin": None}, 403),
        ]:
            self.refused(name, self.lines(room, "FEED A\nFEED B", count, **fields), f"1.1 {wanted}")
        foreign = self.lines(room, "FEED A\nFEED B", 1, Host="museum.example")
        self.refused("a foreign host", foreign, "1.1 403", room.elsewhere())
        self.same("by another method", status(room.get(1, "/lines")), 405)
        self.refused("a body of 16,385 bytes", self.lines(room, "FEED\n" * 3277, 1), "1.1 413")
        self.unchanged("they leave the machine as it was", room, before)


class Names(PageTest):
    """A room has a name, which a picture says and a line may name."""

    def name_of(self, room, seat=1):
        """The name that a picture says."""
        return NAME.match(body(room.get(seat, "/picture?room=&core=0&paper=0")))[1].decode()

    def test_a_picture_says_it(self):
        room = self.pages(2)
        name, without = self.name_of(room), body(room.get(1, "/picture?core=0&paper=0"))
        self.same("the rest is as without it", body(room.get(1, "/picture?room=X&core=0&paper=0")),
                  f"ROOM {name}\n".encode() + without)
        self.same("it stays", self.name_of(room), name)
        self.same("all its pages say it", self.name_of(room, 2), name)
        self.check("another room has another", "" if self.name_of(self.pages(1)) != name else "it hasn't")

    def test_a_picture_that_a_page_has(self):
        """One of another room is none that it has, whatever its count."""
        room = self.pages(1)
        name = self.name_of(room)
        for query, wanted in [
            (f"room={name}&core=0&paper=0&after=0", 204),
            (f"room={name}&core=0&paper=0&after=1", 200),
            (f"room={name[1:]}&core=0&paper=0&after=0", 200),
            ("room=&core=0&paper=0&after=0", 200),
            (f"room={name}", 400),
            (f"room={name}&room={name}&core=0&paper=0", 400),
            (f"core=0&paper=0&room={name}", 400),
            (f"core=0&paper=0&after=0&room={name}", 400),
        ]:
            self.same(query.replace(name, "NAME"), status(room.get(1, f"/picture?{query}")), wanted)

    def test_a_line_that_names_a_room(self):
        room = self.pages(2)
        name = self.name_of(room)
        self.within("its own", room.post(1, "START 1", 0, X_1401_Room=name), "HTTP/1.1 200 ", "\r\n\r\nOK\n")
        self.within("none", room.post(1, "START 2", 1), "HTTP/1.1 200 ", "\r\n\r\nOK\n")
        other = room.post(2, "START 2", 0, X_1401_Room=name)
        self.within("the same at another seat", other, "HTTP/1.1 200 ", "\r\n\r\nOK\n")
        for path in "/line", "/lines":
            for which, other in ("another", "0" * 16), ("a part of it", name[1:]), ("an empty one", ""):
                self.refused(f"{which} at {path}", room.post(1, "START 3", 2, path, X_1401_Room=other), "1.1 409")
            twice = f"{name}\r\nX-1401-Room: {name}"
            self.refused(f"twice at {path}", room.post(1, "START 3", 2, path, X_1401_Room=twice), "1.1 400")
        self.unchanged("they leave the machine as it was", room, 3)


if __name__ == "__main__":
    unittest.main()
