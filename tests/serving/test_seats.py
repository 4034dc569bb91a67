"""Served rooms that stay open: seats that are taken again, connections without a seat, options, and how a room ends."""
import os
import socket
import struct
import time
import unittest

from tests.support import EXAMPLES, SECONDS, ProgramTest, at_a_port, program

# How many times a port is looked at.
PROBES = 20
# How long a line may take to the program, in seconds.
PAUSE = 0.3


class Seats(ProgramTest):
    """Who has a seat."""

    def test_a_probe_costs_nothing_and_a_connection_beyond_the_seats_hears_full(self):
        room = self.room("serve", "--keep-seats", seats=2)
        for _ in range(5):
            room.console().close()
        first, reply = room.seated(b"DEPOSIT 0700 A\n")
        second, seen = room.seated(b"EXAMINE 0700\n")
        with first, second:
            self.same("the first seat", reply, b"OK\n")
            self.same("the second seat", seen, b"A\n")
            with room.console() as third:
                self.same("a console beyond the seats", third.hear(), b"FULL\n")
            first.sendall(b"QUIT\nDEPOSIT 0700 C\n")
            self.same("an operator leaves, and nothing is carried out after QUIT", first.hear(), b"BYE\n")
            again, reply = room.seated(b"GLANCE 0700\n")
            with again:
                self.same("the seat is taken again, and has seen what it had seen", reply, b"AFTER 2 A\n")
                self.same("a command is carried out there", again.say(b"DEPOSIT 0700 B\n"), b"OK\n")
                self.ends_at_quit(room, again, second)
        self.ended(room, "it ends well", 4, b"")

    def ends_at_quit(self, room, again, second):
        """Subtests: no other line ends a room, and QUIT ends its consoles."""
        room.type(b"\nSTART 1\nquit\n")
        self.same("other lines don't end it", second.say(b"EXAMINE 0700\n"), b"B\n")
        room.type(b"QUIT\n")
        self.same("QUIT ends an open console", again.hear(), b"")
        self.same("and each other", second.hear(), b"")

    def test_the_lowest_free_seat(self):
        """It is free as soon as the one before has heard its end."""
        path = self.folder / "lowest.journal"
        room = self.room("serve", "--journal", path, seats=3)
        with room.console() as first, room.console() as second:
            self.same("the first of three seats", first.say(b"DEPOSIT 1 A\n"), b"OK\n")
            self.same("the second of them", second.say(b"EXAMINE 1\n"), b"A\n")
            first.sendall(b"QUIT\n")
            self.same("the first is left", first.hear(), b"BYE\n")
            third = room.console().visit(b"GLANCE 1\nDEPOSIT 1 C\nQUIT\n")
            self.same("it is taken again, and left", third, b"AFTER 2 A\nOK\nBYE\n")
            second.sendall(b"EXAMINE 1\nQUIT\n")
            self.same("the second goes on, and is left", second.hear(), b"C\nBYE\n")
        self.ended(room, "it ends", 4)
        text = (b"JOURNAL1 4000\n1\t1\tDEPOSIT 0001 A\tOK\n2\t2\tEXAMINE 0001 1\tA\n3\t1\tDEPOSIT 0001 C\tOK\n"
                b"4\t2\tEXAMINE 0001 1\tC\n")
        self.holds("each command has the seat that was free", path, text)

    def test_connections_without_a_seat(self):
        """FULL, also after a connection that hasn't read it yet; a last line needs no line feed."""
        path = self.folder / "one.journal"
        room = self.room("serve", "--journal", path, seats=1)
        with room.console() as only:
            self.same("the only seat", only.say(b"EXAMINE 1\n"), b" \n")
            with room.console() as unread, room.console() as late:
                self.same("a connection after one that doesn't read", late.hear(), b"FULL\n")
                self.same("and that one, when it does", unread.hear(), b"FULL\n")
            only.sendall(b"EXAMINE 2\nQUIT\n")
            self.same("the seat goes on, and is left", only.hear(), b" \nBYE\n")
        self.same("the next connection has it", room.console().visit(b"EXAMINE 3"), b" \n")
        room.close_input()
        self.ended(room, "it ends with its input", 3)
        text = b"JOURNAL1 4000\n" + b"".join(b"%d\t1\tEXAMINE 000%d 1\t \n" % (k, k) for k in (1, 2, 3))
        self.holds("each command is of that seat", path, text)

    def test_a_line_that_a_reset_cuts_short_is_not_carried_out(self):
        """Nor is it where the room isn't kept; at the end of what is sent the last line needs no line feed."""
        path = self.folder / "reset.journal"
        for name, room in [("kept seats", self.room("serve", "--journal", path, seats=1)),
                           ("seats taken once", self.plain_room(1))]:
            with room.console() as console:
                self.same(f"{name}: a line before it", console.say(b"EXAMINE 1\n"), b" \n")
                console.sendall(b"DEPOSIT 0700 A")
                time.sleep(PAUSE)
                # A close over this option is a reset.
                console.setsockopt(socket.SOL_SOCKET, socket.SO_LINGER, struct.pack("ii", 1, 0))
            if name == "kept seats":
                console, reply = room.seated(b"EXAMINE 0700\n")
                self.same(f"{name}: the cell is as it was", reply, b" \n")
                console.close()
                self.ended(room, name, 2)
            else:
                self.expect(name, room.end(b""), 0, f"{room.ready}JOURNAL 1\n")

    def test_probes_that_wait_for_the_end(self):
        """Connections that send nothing hear nothing, and each leaves its seat to the next; QUIT needs no line feed."""
        path = self.folder / "probes.journal"
        room = self.room("serve", "--journal", path, seats=1)
        heard = b"".join(room.console().visit(b"") + b"/" for _ in range(PROBES))
        self.same(f"{PROBES} probes of a port hear nothing", heard, b"/" * PROBES)
        self.same("and cost no seat", room.console().visit(b"EXAMINE 1\n"), b" \n")
        self.ended(room, "QUIT at the end of the input", 1, b"QUIT")
        self.holds("they are no commands", path, b"JOURNAL1 4000\n1\t1\tEXAMINE 0001 1\t \n")


class Ends(ProgramTest):
    """How a room ends that stays open."""

    def test_the_end_of_standard_input(self):
        room = self.room("serve", "--keep-seats", "--size", "1400", seats=1)
        with room.console() as only:
            self.same("a room of 1400 places", only.say(b"START 1400\n"), b"REFUSED 1 ADDRESS\n")
            room.close_input()
            self.same("it ends a console", only.hear(), b"")
        self.ended(room, "it ends the room", 1)

    def test_quit_and_a_carriage_return(self):
        room = self.room("serve", "--keep-seats", seats=1)
        self.ended(room, "the room", 0, b"quit\r\nQUIT\r\n")

    def test_an_input_that_is_at_its_end(self):
        ran = at_a_port(lambda port: program("serve", "--port", str(port), "--seats", "1", "--keep-seats"))
        self.expect("the room", ran, 0, "READY\nJOURNAL 0\n")

    def test_an_input_that_cannot_be_read(self):
        path = self.folder / "unread.journal"
        path.write_bytes(b"JOURNAL1 4000\n1\t1\tSTART 0001\tOK\n")
        for words, journal in [
            (["serve", "--keep-seats"], 0),
            (["serve", "--journal", self.folder / "unread.new"], 0),
            (["resume", path], 1),
        ]:
            inside = os.open("/", os.O_RDONLY)
            ran = at_a_port(lambda port: program(*words, "--port", str(port), "--seats", "1", stdin=inside))
            os.close(inside)
            name = " ".join(word for word in words if isinstance(word, str))
            self.expect(name, ran, 1, f"READY\nJOURNAL {journal}\n", "ibm1401: input failed\n")


class Options(ProgramTest):
    """An image or a deck at the beginning, and options that don't go together."""

    def test_an_image(self):
        room = self.room("serve", "--image", EXAMPLES / "five_and_five.image", seats=2)
        with room.console() as console:
            replies = console.say(b"RUN 100\nEXAMINE 0420\n")
            self.same("it is run", replies.split(b"\n")[0], b"STOP 02 HALT...")
        room.close_input()
        output = room.process.communicate(timeout=SECONDS)[0]
        self.same("the commands that load it count", output, b"JOURNAL ...")

    def test_a_deck(self):
        """It is in the hopper before the first console comes, and keeps the room open as --keep-seats does."""
        deck = self.folder / "one.cards"
        deck.write_text("A CARD\n")
        room = self.room("serve", "--cards", deck, seats=1)
        registers = room.console().visit(b"REGS\n")
        self.check("one card is in the hopper", "" if b" HOPPER=001 " in registers else f"{registers}")
        self.same("the seat is taken again", room.console().visit(b"EXAMINE 1\n"), b" \n")
        self.ended(room, "the card is a command as well", 3)

    def test_faulty_images(self):
        bad, none = self.folder / "bad.image", self.folder / "none"
        bad.write_bytes(b"IMAGE2 04000\n")
        call = ["serve", "--port", "1", "--seats", "1", "--image"]
        self.expect("a faulty image", program(*call, bad), 1, "", "ibm1401: image refused: ...")
        self.expect("no image", program(*call, none), 1, "", f"ibm1401: cannot read {none}\n")

    def test_misused(self):
        call = ["serve", "--port", "1", "--seats", "1"]
        together = program(*call, "--image", "a", "--size", "1400")
        error = "error: the argument '--image <FILE>' cannot be used with..."
        self.expect("an image has its own size", together, 2, "", error)
        error = "error: the following required arguments were not provided:..."
        self.expect("--sync is of a journal", program(*call, "--sync"), 2, "", error)
        refused = program(*call, "--keep-seats", "--size", "1401")
        self.expect("no such size", refused, 1, "", "ibm1401: size refused\n")

    def test_the_size_is_looked_at_before_a_port(self):
        """So these options are read without a port."""
        for words in (
            "--port 1401 --keep-seats --seats 8", "--page 8080 --seats 8", "--port 1401 --seats 8 --page 81",
            "--page 72 --seats 8", "--page 79 --seats 1", "--page 65528 --seats 8", "--page 65535 --seats 1",
        ):
            ran = program("serve", *words.split(), "--size", "0")
            self.expect(f"serve {words}", ran, 1, "", "ibm1401: size refused\n")

    def test_a_port_that_is_taken(self):
        new = self.folder / "new.journal"
        with socket.socket() as taken:
            taken.bind(("127.0.0.1", 0))
            taken.listen()
            port = str(taken.getsockname()[1])
            ran = program("serve", "--port", port, "--seats", "1", "--journal", new)
        self.expect("the room", ran, 1, "", "ibm1401: port refused\n")
        self.check("and no file is made", "it is there" if new.exists() else "")


if __name__ == "__main__":
    unittest.main()
