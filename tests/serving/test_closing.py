"""How a room is closed by its input, which stays open."""
import socket
import unittest

from tests.support import SECONDS, ProgramTest

# How many runs are asked for: more than end before a room is closed.
RUNS = 5_000


class Closing(ProgramTest):
    """Lines of standard input that close a room, and what is in progress then."""

    def test_quit_with_a_carriage_return_closes_a_room_whose_input_stays_open(self):
        for name, line in ("QUIT", b"QUIT\n"), ("QUIT and a carriage return", b"QUIT\r\n"):
            room = self.room("serve", "--keep-seats", seats=1)
            with room.console() as console:
                self.same(f"{name}: a console", console.say(b"EXAMINE 0\n"), b" \n")
                room.type(line)
                self.same(f"{name}: its end", console.hear(), b"")
            self.same(f"{name}: the room's end", room.process.wait(SECONDS), 0)

    def test_other_lines_close_nothing(self):
        room = self.room("serve", "--keep-seats", seats=1)
        with room.console() as console:
            room.type(b"quit\nQUIT \n QUIT\nQUIT NOW\nQUIT\r\r\nQUIT\rA\n\rQUIT\nQUITQUIT\n\n\r\nQUI\nT\nQ\rUIT\n")
            self.same("a console", console.say(b"EXAMINE 0\n"), b" \n")
        self.ended(room, "the room", 1)

    def test_an_input_that_breaks_in_a_line(self):
        """One end of a pair is closed with a byte unread: a read of the other fails once it has had what came."""
        ours, theirs = socket.socketpair()
        with theirs:
            room = self.room("serve", "--keep-seats", seats=1, stdin=theirs)
            with room.console() as console:
                self.same("a console", console.say(b"EXAMINE 0\n"), b" \n")
                theirs.send(b"x")
                ours.send(b"\nQUI")
                ours.close()
                self.same("its end", console.hear(), b"")
            output, error = room.process.communicate(timeout=SECONDS)
        self.same("the room", (room.process.returncode, output, error), (1, b"JOURNAL 1\n", b"ibm1401: input failed\n"))

    def test_a_run_in_progress_has_its_reply(self):
        """Each command that is in the journal has its reply, also the run that goes on while the room is closed."""
        room = self.room("serve", "--keep-seats", seats=1)
        with room.console() as console:
            self.same("a loop", console.say(b"DEPOSIT 0500 ~B500~.\nSTART 0500\n"), b"OK\nOK\n")
            console.settimeout(SECONDS)
            console.sendall(b"RUN 1000000\n" * RUNS)
            first = console.recv(1 << 16)
            room.type(b"QUIT\n")
            replies = first + console.hear()
        runs = replies.count(b"STOP 01 LIMIT STEPS 1000000 I 00500\n")
        self.same("whole replies", replies, b"STOP 01 LIMIT STEPS 1000000 I 00500\n" * runs)
        self.check("not all runs were begun", "" if 0 < runs < RUNS else f"{runs} were")
        self.expect("the room", room.end(b""), 0, f"{room.ready}JOURNAL {2 + runs}\n")


if __name__ == "__main__":
    unittest.main()
