"""A connection that the system doesn't accept: what passes is tried again, and what doesn't closes the port."""
import errno
import select
import socket
import unittest

from tests.preloaded import needs_compiler, preloading
from tests.support import SECONDS, ProgramTest, wait_until

# What passes: the connection is gone, or the system is short of something.
PASSING = ["ECONNABORTED", "EPROTO", "EAGAIN", "EINTR", "ENOBUFS", "ENOMEM", "EMFILE", "ENFILE", "ENETDOWN"]
# What of this is no want of the system's.
GONE = ["ECONNABORTED", "EPROTO", "EINTR", "ENETDOWN"]


def refusing(name, times):
    """How a process is started that can't accept a connection this many times, for this reason."""
    return preloading("refuse_accept", REFUSED_ACCEPT=getattr(errno, name), REFUSED_TIMES=times)


def is_refused(port):
    """Whether a connection to this port is refused."""
    with socket.socket() as one:
        return one.connect_ex(("127.0.0.1", port)) == errno.ECONNREFUSED


@needs_compiler
class RefusedAccepts(ProgramTest):
    """Accepts that fail."""

    def test_consoles_come_after_a_failure_that_passes(self):
        for name in PASSING:
            for times in 1, 3:
                room = self.room("serve", "--keep-seats", seats=1, **refusing(name, times))
                with room.console() as console:
                    self.same(f"{name}, {times} times: a console", console.say(b"EXAMINE 0\n"), b" \n")
                self.ended(room, f"{name}, {times} times: the room", 1)

    def test_pages_are_answered_after_a_failure_that_passes(self):
        room = self.room("serve", seats=1, consoles=False, pages=True, **refusing("ECONNABORTED", 1))
        self.same("a page", room.give(1, 0, b"EXAMINE 0"), (200, b" \n"))
        self.ended(room, "the room", 1)

    def test_a_failure_that_does_not_pass_closes_the_port(self):
        room = self.room("serve", "--keep-seats", seats=1, **refusing("ENOTSOCK", 1))
        self.check("clients are refused", "" if wait_until(lambda: is_refused(room.port)) else "one connects")
        reported = room.process.stderr.readline() if select.select([room.process.stderr], [], [], SECONDS)[0] else b""
        self.same("it is reported at once", reported, b"ibm1401: a port was closed; the room goes on\n")
        self.ended(room, "the room", 0, status=1, error="ibm1401: accept failed\n")

    def test_a_connection_that_was_gone_does_not_end_a_room_whose_seats_are_taken_once(self):
        for name in GONE:
            room = self.plain_room(1, **refusing(name, 1))
            with room.console() as console:
                self.same(f"{name}: its console", console.say(b"EXAMINE 0\nQUIT\n"), b" \nBYE\n")
            self.ended(room, f"{name}: the room", 1)

    def test_any_other_failure_ends_a_room_whose_seats_are_taken_once(self):
        for name in "EAGAIN", "EMFILE", "ENOBUFS", "ENOTSOCK":
            room = self.plain_room(1, **refusing(name, 1))
            self.ended(room, name, 0, status=1, error="ibm1401: accept failed\n")


if __name__ == "__main__":
    unittest.main()
