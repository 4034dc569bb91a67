"""A served room of whose journal an entry can't be kept: what its consoles and its page show from then on."""
import os
import resource
import select
import signal
import socket
import time
import unittest

from tests.support import SECONDS, UNWRITTEN, ProgramTest, ask, status, wait_until

# A journal's file may have the head and one entry of this test, and only a part of the next.
MOST_BYTES = 50


def limited():
    """Refuses to let a file grow beyond the limit, as a full disk does."""
    signal.signal(signal.SIGXFSZ, signal.SIG_IGN)
    resource.setrlimit(resource.RLIMIT_FSIZE, (MOST_BYTES, MOST_BYTES))


def say(console, line):
    """Sends a line, and returns its reply, or what comes before the connection ends."""
    console.sendall(line)
    heard = b""
    while not heard.endswith(b"\n") and (piece := console.recv(4096)):
        heard += piece
    return heard


class AnEntryThatIsNotKept(ProgramTest):
    """A room with two seats: the first gives a command that is kept, and one that isn't."""

    def setUp(self):
        super().setUp()
        new = self.folder / "new"
        room = self.room("serve", "--journal", new, seats=2, pages=True, preexec_fn=limited)
        self.server, self.port, self.pages = room.process, room.port, [room.page, room.page + 1]

    def console(self):
        """A connection, which has the lowest free seat."""
        console = socket.create_connection(("127.0.0.1", self.port), timeout=SECONDS)
        self.addCleanup(console.close)
        return console

    def seated(self, line, reply):
        """A connection that has a seat, and whose line has this reply: it comes again while no seat is free."""
        late = time.monotonic() + SECONDS
        while True:
            console = self.console()
            heard = say(console, line)
            if heard != b"FULL\n" or time.monotonic() > late:
                break
        self.assertEqual(heard, reply)
        return console

    def ask(self, seat, head, body=b""):
        """The status and the body of a seat's page's answer to a request. It is made again while nothing comes back."""
        port = self.pages[seat - 1]
        fields = f"Host: 127.0.0.1:{port}\r\nOrigin: http://127.0.0.1:{port}\r\nContent-Length: {len(body)}\r\n"
        answer = ask(port, head.replace("\n", f" HTTP/1.1\r\n{fields}", 1).encode() + b"\r\n" + body)
        return status(answer), answer.partition(b"\r\n\r\n")[2]

    def picture(self, seat):
        """The answer to a request for a picture."""
        return self.ask(seat, "GET /picture?core=0700&paper=0\n")

    def line(self, seat, made, line):
        """The answer to a request that brings a line after this many commands."""
        return self.ask(seat, f"POST /line\nX-1401-Line: {made}\r\nContent-Type: text/plain\r\n", line)

    def fail_at_a_console(self):
        """Seat 1's console gives a command that is kept, and one that isn't; the second console is returned."""
        first, second = self.console(), self.console()
        self.assertEqual(say(first, b"DEPOSIT 0700 A\n"), b"OK\n")
        self.assertEqual(say(second, b"GLANCE 0700\n"), b"AFTER 1 A\n")
        self.assertEqual(say(first, b"DEPOSIT 0700 B\n"), b"", "a command that isn't kept has a reply")
        return second

    def test_glances_go_on_after_an_entry_that_is_not_kept(self):
        second = self.fail_at_a_console()
        self.assertEqual(say(second, b"GLANCE 0700\n"), b"AFTER 1 A\n")
        self.assertEqual(say(second, b"EXAMINE 0700\n"), b"FAULT 4 UNKEPT\n")
        self.assertEqual(say(second, b"GLANCE 0700\n"), b"AFTER 1 A\n", "a refused command ends the glances")

    def test_the_seat_of_an_entry_that_is_not_kept_can_be_taken_again_and_looked_from(self):
        self.fail_at_a_console()
        again = self.seated(b"GLANCE 0700\n", b"AFTER 1 A\n")
        self.assertEqual(say(again, b"DEPOSIT 0700 C\n"), b"FAULT 4 UNKEPT\n")
        self.assertEqual(say(again, b"GLANCE 0700\n"), b"AFTER 1 A\n")

    def test_a_page_shows_the_machine_before_its_entry_that_is_not_kept(self):
        self.assertEqual(self.line(1, 0, b"DEPOSIT 0700 A"), (200, b"OK\n"))
        before = self.picture(1)
        self.assertEqual(before[0], 200)
        self.assertEqual(self.line(1, 1, b"DEPOSIT 0700 B"), (500, b""))
        self.assertEqual(self.picture(1), before, "the picture after an entry that isn't kept")
        self.assertEqual(self.line(1, 1, b"GLANCE 0700"), (200, b"AFTER 1 A\n"))
        self.assertEqual(self.line(1, 1, b"DEPOSIT 0700 C"), (200, b"FAULT 4 UNKEPT\n"))
        self.assertEqual(self.picture(1), before, "the picture after a command that is refused")

    def test_another_page_shows_the_machine_after_a_refused_command(self):
        self.fail_at_a_console().close()
        wait_until(lambda: self.picture(2)[0] == 200)
        self.assertEqual(self.line(2, 0, b"EXAMINE 0700"), (200, b"FAULT 4 UNKEPT\n"))
        status, text = self.picture(2)
        self.assertEqual(status, 200)
        self.assertIn(b"AFTER 1\n", text)

    def test_the_room_ends_in_order_with_the_unkept_command_in_its_journal(self):
        self.fail_at_a_console()
        output, error = self.server.communicate(b"QUIT\n", timeout=SECONDS)
        self.assertEqual(output, b"JOURNAL 2\n")
        self.assertEqual((self.server.returncode, error.decode()), (1, f"{UNWRITTEN}ibm1401: session ended: UNKEPT\n"))

    def test_standard_error_reports_it_at_once(self):
        self.fail_at_a_console()
        self.assertTrue(select.select([self.server.stderr], [], [], SECONDS)[0])
        self.assertEqual(os.read(self.server.stderr.fileno(), 1000).decode(), UNWRITTEN)
        self.assertIsNone(self.server.poll(), "the room goes on")


if __name__ == "__main__":
    unittest.main()
