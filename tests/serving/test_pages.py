"""Pages and consoles at the seats of a served room: who has a seat, idle connections, a deck, options and ends."""
import select
import socket
import threading
import time
import unittest

from tests.support import (EXAMPLES, PAGE, PAUSE, SECONDS, ProgramTest, ask, at_a_port, at_most, misuse, program,
                           shell)

# How many idle connections a page may have without a delay, and how many at most. It waits a second for each: a reply
# would come after so many seconds if it waited for one after the other.
IDLE = 60
MOST_WAITING = 64
# How often is looked whether some connections are closed before others.
TURNS = 100
TAKEN = b"a console sits at this seat\n"
USAGE = "serve [OPTIONS] --seats <K> <--port <P>|--page <PORT>>"


def refused_of_a_taken_seat(port):
    """Requests that aren't for the text of this page."""
    own = f"HTTP/1.1\r\nHost: 127.0.0.1:{port}\r\n"
    return [
        ("a picture", f"GET /picture?core=0&paper=0 {own}\r\n"),
        ("a line of anybody", f"POST /line {own}Content-Length: 4\r\n\r\nREGS"),
        ("the page by another method", f"POST / {own}Content-Length: 0\r\n\r\n"),
        ("the page of another host", "GET / HTTP/1.1\r\nHost: museum.example\r\n\r\n"),
        ("the page with two origins", f"GET / {own}Origin: http://a\r\nOrigin: http://b\r\n\r\n"),
        ("an unknown path", f"GET /none {own}\r\n"),
    ]


class Pages(ProgramTest):
    """Tests of rooms with pages."""

    def pages(self, seats, *words, call=("serve",), **how):
        """A room with a page for each seat."""
        return self.room(*call, *words, seats=seats, pages=True, **how)

    def is_page(self, name, asked):
        """A subtest: a request was answered by the page, to the byte."""
        self.same(name, asked, (200, PAGE))


class WhoeverComesFirst(Pages):
    """A seat goes to its page or to a console, whoever comes first; a page keeps it, a console frees it."""

    def test_a_console_and_then_its_page(self):
        kept = self.folder / "first.journal"
        room = self.pages(2, "--journal", kept)
        with room.console() as first:
            self.same("a console comes first", first.say(b"DEPOSIT 0700 ~1\n"), b"OK\n")
            self.page_is_refused(room)
            self.is_page("the other page is there", room.ask(2))
            self.same("a line is answered there", room.give(2, 0, b"EXAMINE 0700 1"), (200, b"~1\n"))
            with room.console() as third:
                self.same("no seat is left for a console", third.hear(), b"FULL\n")
            self.same("the console leaves", first.say(b"QUIT\n"), b"BYE\n")
            self.same("and its connection ends", first.hear(), b"")
        self.page_has_the_seat(room)
        self.ended(room, "the room", 3)
        text = (b"JOURNAL1 4000\n1\t1\tDEPOSIT 0700 ~1\tOK\n2\t2\tEXAMINE 0700 1\t~1\n"
                b"3\t1\tEXAMINE 0700 1\t~1\n")
        self.holds("what was refused is no command", kept, text)

    def page_is_refused(self, room):
        """Subtests: each request of seat 1 but that for the page's text is refused while a console has it."""
        self.is_page("the page itself is there", room.ask(1))
        for name, request in refused_of_a_taken_seat(room.page):
            response = ask(room.page, request.encode())
            self.within(f"refused at its page: {name}", response, "HTTP/1.1 503 ", b"\r\n\r\n" + TAKEN)
        self.same("a picture is refused", room.ask(1, path="/picture?core=0&paper=0"), (503, TAKEN))
        self.same("so is a line there", room.give(1, 1, b"DEPOSIT 0700 ~2"), (503, TAKEN))

    def page_has_the_seat(self, room):
        """Subtests: seat 1 is its page's, with the command that the console made there, and stays so."""
        self.is_page("its page has the seat then", room.ask(1))
        lines = room.ask(1, path="/picture?core=0400&paper=0")[1].split(b"\n")
        self.same("with what the console made there", lines[:2], [b"SEAT 1 OF 2 MADE 1", b"AFTER 2"])
        self.same("a line goes on from that", room.give(1, 1, b"EXAMINE 0700 1"), (200, b"~1\n"))
        with room.console() as late:
            self.same("a page keeps its seat", late.hear(), b"FULL\n")
        self.is_page("and is there again", room.ask(1))
        self.same("QUIT of a page leaves it its seat", room.give(1, 2, b"QUIT"), (200, b"BYE\n"))
        self.same("and it goes on", room.give(1, 2, b"GLANCE 0700"), (200, b"AFTER 3 ~1\n"))


class Idle(Pages):
    """Connections that send nothing delay nobody."""

    def idle(self, room, many):
        """This many connections that send nothing, until the test ends."""
        connections = [room.connect() for _ in range(many)]
        for connection in connections:
            self.addCleanup(connection.close)
        return connections

    def test_they_delay_neither_the_first_request_nor_the_end(self):
        """A request would come only after longer than a reply may take if they were waited for one after the other."""
        room, begun = self.pages(1), time.monotonic()
        idle = self.idle(room, IDLE)
        self.is_page(f"the first request of all, after {IDLE} idle connections", room.ask(1))
        self.in_time(begun)
        self.ended(room, "a room ends though they stay", 0)
        heard = b"".join(each.hear() + b"/" for each in idle)
        self.same("each of them hears the end", heard, b"/" * IDLE)

    def test_they_are_closed(self):
        room = self.pages(1, consoles=False)
        self.is_page("a page alone", room.ask(1))
        begun = time.monotonic()
        idle = self.idle(room, IDLE)
        self.is_page(f"a page after {IDLE} idle connections", room.ask(1))
        self.in_time(begun)
        self.same("they are closed", [connection.hear() for connection in idle], [b""] * IDLE)
        self.ended(room, "the room", 0)

    def test_the_oldest_are_closed_for_those_beyond_the_most(self):
        """The others are still open then, if the host lets us look within the second that they have."""
        room = self.pages(1, consoles=False)
        self.is_page("a page alone", room.ask(1))
        idle = []
        for _ in range(TURNS):
            for connection in idle:
                connection.close()
            idle = self.idle(room, MOST_WAITING + 6)
            oldest = [connection.hear() for connection in idle[:6]]
            others_ended = select.select(idle[6:], [], [], 0)[0]
            self.assertEqual([b""] * 6, oldest)
            if not others_ended:
                break
        self.same(f"six for those beyond {MOST_WAITING}, and none of the others", len(others_ended), 0)
        self.same("then the others", [connection.hear() for connection in idle], [b""] * len(idle))
        self.is_page("the page is there again", room.ask(1))

    def test_the_end_does_not_wait_for_them(self):
        room = self.pages(1, consoles=False)
        self.idle(room, IDLE)
        begun = time.monotonic()
        self.ended(room, "a room with idle connections", 0)
        self.in_time(begun)

    def in_time(self, begun):
        """A subtest: it hasn't been so long since then that each connection could have been waited for."""
        took = time.monotonic() - begun
        self.check("before it could have waited for each", "" if took < IDLE else f"it took {took:.1f} s")

    def test_a_request_after_a_connection_that_drips(self):
        """It sends a byte now and then until the request is answered, or until it is closed."""
        room, answers = self.pages(1, consoles=False), []
        self.is_page("a page alone", room.ask(1))
        asking = threading.Thread(target=lambda: answers.append(room.ask(1)))
        with room.connect() as drips:
            drips.sendall(b"G")
            asking.start()
            try:
                while asking.is_alive():
                    drips.sendall(b"E")
                    asking.join(5 * PAUSE)
            except OSError:
                pass
            asking.join()
        self.is_page("the request", answers[0])


class Begun(Pages):
    """Rooms with pages that begin with a deck, or with a journal."""

    def test_an_image_a_deck_and_a_journal(self):
        """It goes on from the journal afterwards."""
        image, deck = EXAMPLES / "card_listing.image", EXAMPLES / "card_listing.cards"
        cards, kept = deck.read_bytes().count(b"\n"), self.folder / "kept.journal"
        room = self.pages(1, "--image", image, "--cards", deck, "--journal", kept, consoles=False)
        lines = room.ask(1, path="/picture?core=0000&paper=0")[1].split(b"\n")
        made = int(lines[0].split()[-1])
        self.check("the deck is in the hopper", "" if b"HOPPER=%03d" % cards in lines[2] else f"it is {lines[2]!r}")
        self.same("by commands of seat 1", kept.read_bytes().count(b"\t1\tFEED "), cards)
        status, reply = room.give(1, made, b"RUN 1000000")
        self.same("the deck is read", (status, reply[:14]), (200, b"STOP 03 READER"))
        self.ended(room, "the room", made + 1)
        room = self.pages(2, call=("resume", kept))
        lines = room.ask(1, path="/picture?core=0000&paper=0")[1].split(b"\n")
        wanted = [b"SEAT 1 OF 2 MADE %d" % (made + 1), b"AFTER %d" % (made + 1)]
        self.same("it goes on where it ended", lines[:2], wanted)
        with room.console() as second:
            self.same("next to a console", second.say(b"EXAMINE 0001\n").count(b"\n"), 1)
        self.ended(room, "the resumed room", made + 2)

    def test_the_end_of_standard_input(self):
        deck = EXAMPLES / "card_listing.cards"
        room = self.pages(1, "--cards", deck, consoles=False)
        with room.connect():
            room.close_input()
            self.ended(room, "the room", deck.read_bytes().count(b"\n"))

    def test_a_full_hopper(self):
        deck = self.folder / "full.cards"
        deck.write_bytes(b"a card\n" * 500)
        room = self.pages(1, "--cards", deck)
        self.ended(room, "the room", 500, error=f"ibm1401: {deck}: small letters are read as capitals\n")


class Refused(Pages):
    """Ports, options and decks that are refused before anything is made."""

    def test_port_80(self):
        error = misuse("no page can be at port 80, which browsers leave out of what they send", USAGE)
        for page, seats in (79, 2), (80, 2), (80, 1), (73, 8):
            ran = program("serve", "--page", str(page), "--seats", str(seats))
            self.expect(f"{seats} seats from {page} on", ran, 2, "", error)

    def test_no_port_beyond_the_last(self):
        error = misuse("the pages of all seats need ports beyond 65535", USAGE)
        for page, seats in (65535, 2), (65529, 8):
            ran = program("serve", "--page", str(page), "--seats", str(seats))
            self.expect(f"{seats} seats from {page} on", ran, 2, "", error)

    def test_misused(self):
        for wrong, why in [
            ("0", "0 is not in 1..=65535"),
            ("65536", "65536 is not in 1..=65535"),
            ("x", "invalid digit found in string"),
        ]:
            error = misuse(f"invalid value '{wrong}' for '--page <PORT>': {why}")
            self.expect(f"--page {wrong}", program("serve", "--seats", "2", "--page", wrong), 2, "", error)
        missing = "the following required arguments were not provided:\n  <--port <P>|--page <PORT>>"
        error = misuse(missing, USAGE.replace(" [OPTIONS]", ""))
        self.expect("no port and no page", program("serve", "--seats", "2"), 2, "", error)

    def test_a_port_that_is_taken(self):
        kept = self.folder / "none.journal"
        with socket.socket() as taken:
            taken.bind(("127.0.0.1", 0))
            taken.listen()
            page = str(taken.getsockname()[1] - 1)
            ran = program("serve", "--seats", "2", "--page", page, "--journal", kept)
            self.expect("that of the second page", ran, 1, "", "ibm1401: port refused\n")
        # The last port that eight pages need; where it can't be had here, it is another's, or not this user's.
        for page in 72, 65528:
            with socket.socket() as taken:
                try:
                    taken.bind(("127.0.0.1", page + 7))
                    taken.listen()
                except OSError:
                    pass
                ran = program("serve", "--page", str(page), "--seats", "8", "--journal", kept)
                self.expect(f"the last of eight ports from {page} on", ran, 1, "", "ibm1401: port refused\n")
        self.check("no journal is made", "it is there" if kept.exists() else "")

    def test_decks(self):
        kept, deck, none = (self.folder / each for each in ("none.journal", "big.cards", "no.cards"))
        for name, path, text, fault in [
            ("more cards than the hopper holds", deck, b"A CARD\n" * 501,
             "501 cards are more than the hopper holds"),
            ("a card that is too long", deck, b"A CARD\n" + b"B" * 81 + b"\n",
             "line 2, column 81: a card has 80 columns"),
            ("no deck", none, b"", "no such file"),
        ]:
            deck.write_bytes(text)
            words = ["--seats", "2", "--journal", kept, "--cards", path]
            ran = at_a_port(lambda port: program("serve", *words, "--page", str(port)), 2)
            self.expect(name, ran, 1, "", f"ibm1401: {path}: {fault}\n")
        self.check("no journal is made", "it is there" if kept.exists() else "")


class Ends(Pages):
    """Ends of a room with pages whose output takes nothing, or that has no handle left."""

    def test_ready_that_cannot_be_written(self):
        new = self.folder / "unheard.journal"
        for words in ["serve"], ["serve", "--journal", new]:
            for output in ">&-", "> /dev/full":
                call = f'"$0" "$@" {output}'
                ran = at_a_port(lambda port: shell(call, *words, "--seats", "1", "--page", str(port)))
                self.expect(f"{' '.join(words[:2][1:])} {output}", ran, 1, "", "ibm1401: cannot write\n")
                new.unlink(missing_ok=True)

    def test_the_last_line_that_cannot_be_written(self):
        new = self.folder / "unheard.journal"
        room = self.pages(1, "--journal", new)
        room.process.stdout.close()
        self.same("a line at a page", room.give(1, 0, b"START 2")[0], 200)
        room.type(b"QUIT\n")
        room.process.stdin.close()
        error, status = room.process.stderr.read(), room.process.wait(SECONDS)
        self.same("the end", (status, error), (1, b"ibm1401: cannot write\n"))
        self.holds("but the line is kept", new, b"JOURNAL1 4000\n1\t1\tSTART 0002\tOK\n")

    def test_a_console_that_takes_the_last_handle(self):
        # Five are open, and the system sets one aside for each port whose next client is waited for.
        room = self.pages(1, **at_most(7))
        room.settle(5)
        with room.console() as console:
            self.same("it is answered", console.say(b"EXAMINE 0\n"), b" \n")
            self.same("to its end", console.say(b"QUIT\n"), b"BYE\n")
        self.ended(room, "the room", 1)

    def test_a_page_that_holds_the_last_handle(self):
        room = self.pages(1, **at_most(8))
        room.settle(5)
        with room.connect():
            room.settle(6)
            self.ended(room, "the room", 0)


if __name__ == "__main__":
    unittest.main()
