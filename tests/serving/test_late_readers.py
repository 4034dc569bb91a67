"""What a client gets that reads its replies late: nothing that was carried out loses its reply, for a bounded time."""
import fcntl
import resource
import signal
import socket
import sys
import termios
import threading
import time
import unittest

from tests.support import REPLY_SECONDS, SECONDS, UNWRITTEN, ProgramTest, wait_until

# How late a client begins to read.
LATE = 0.2
# When a client begins to read that is given up by then.
TOO_LATE = 2
# How long a client may take to its end, from QUIT on: a room that is closed waits a second for it.
IN_TIME = 0.7
# How many bytes a client holds that it hasn't read, if soon no more are to be taken.
FEW = 4096


def send_ahead(console, lines):
    """Sends lines, as far as the connection takes them."""
    try:
        console.sendall(lines)
    except OSError:
        pass


def send_until_none_is_taken(console, lines):
    """Sends these lines again and again, until the connection has taken no byte for five seconds."""
    console.settimeout(5)
    rest = lines
    try:
        while True:
            rest = rest[console.send(rest):] or lines
    except TimeoutError:
        console.settimeout(REPLY_SECONDS)


def hear_late(console, found):
    """Reads what was sent, late, and closes the connection."""
    time.sleep(LATE)
    found.append(console.hear())
    try:
        console.shutdown(socket.SHUT_RDWR)
    except OSError:
        pass
    console.close()


def unread(console):
    """How many bytes have come to a console that it hasn't read."""
    return int.from_bytes(fcntl.ioctl(console, termios.FIONREAD, bytes(4)), sys.byteorder)


class LateReaders(ProgramTest):
    """Clients that send ahead, and read late."""

    def test_at_the_rooms_quit_each_kept_command_has_its_reply(self):
        """Eight clients have sent 10,000 lines each, and begin to read 0.2 seconds after QUIT."""
        self.trial(self.close_with_eight, IN_TIME)

    def close_with_eight(self):
        """Subtests: a room is closed whose eight clients send ahead; how long they took from QUIT on."""
        room = self.room("serve", "--keep-seats", seats=8)
        consoles, found = [room.console() for _ in range(8)], []
        for each in consoles:
            self.same("a seat", each.say(b"DEPOSIT 0700 A\n"), b"OK\n")
        senders = [threading.Thread(target=send_ahead, args=(each, b"DEPOSIT 0700 A\n" * 10_000)) for each in consoles]
        for each in senders:
            each.start()
        wait_until(lambda: any(unread(each) for each in consoles))
        begun = time.monotonic()
        room.type(b"QUIT\n")
        readers = [threading.Thread(target=hear_late, args=(each, found)) for each in consoles]
        for each in readers:
            each.start()
        for each in readers + senders:
            each.join(SECONDS)
        took = time.monotonic() - begun
        ran = room.end(b"")
        replies = sum(text.count(b"OK\n") for text in found)
        self.check("some lines were carried out, and some were left", "" if 0 < replies < 80_000 else f"{replies} were")
        self.same("nothing but replies", {text.replace(b"OK\n", b"") for text in found}, {b""})
        self.expect("a reply for each entry of the journal", ran, 0, f"{room.ready}JOURNAL {8 + replies}\n")
        return took

    def quit_ahead(self, name, console):
        """A subtest: a client that sends 300 lines, QUIT and 9,000 bytes more has all replies, though it reads late."""
        with console:
            console.sendall(b"EXAMINE 0\n" * 300 + b"QUIT\n" + b"x" * 9000)
            wait_until(lambda: unread(console) >= len(b" \n" * 300 + b"BYE\n"))
            self.same(name, console.hear(), b" \n" * 300 + b"BYE\n")

    def test_quit_and_more_bytes_where_seats_are_taken_again(self):
        room = self.room("serve", "--keep-seats", seats=1)
        for turn in range(20):
            console, reply = room.seated(b"EXAMINE 0\n")
            self.same(f"turn {turn}: a seat", reply, b" \n")
            self.quit_ahead(f"turn {turn}", console)
        self.ended(room, "the room", 20 * 301)

    def test_quit_and_more_bytes_where_each_seat_is_taken_once(self):
        room = self.plain_room(8)
        for turn in range(8):
            self.quit_ahead(f"seat {turn + 1}", room.console())
        self.expect("the room", room.end(b""), 0, f"{room.ready}JOURNAL {8 * 300}\n")

    def test_the_entry_that_was_not_kept_ends_the_console_and_loses_no_reply_before_it(self):
        """The client has sent more than the journal's file may hold, and reads late."""

        def limited():
            signal.signal(signal.SIGXFSZ, signal.SIG_IGN)
            resource.setrlimit(resource.RLIMIT_FSIZE, (6000, 6000))

        path = self.folder / "full.journal"
        room = self.room("serve", "--journal", path, seats=1, preexec_fn=limited)
        with room.console() as console:
            console.sendall(b"DEPOSIT 0700 A\n" * 2000)
            wait_until(lambda: unread(console) == 3 * path.read_bytes().count(b"\tOK\n") > 300)
            replies = console.hear()
        kept = path.read_bytes().count(b"\tOK\n")
        self.check("some were kept", "" if kept > 100 else f"{kept} were")
        self.same("each kept entry has its reply", replies, b"OK\n" * kept)
        error = f"{UNWRITTEN}ibm1401: session ended: UNKEPT\n"
        self.ended(room, "the room", kept + 1, status=1, error=error)

    def test_a_reply_that_is_not_taken_at_the_rooms_quit_still_comes(self):
        """The client sends lines until nothing more is taken, and begins to read 0.2 seconds after QUIT."""
        self.trial(self.close_with_a_full_connection, IN_TIME)

    def close_with_a_full_connection(self):
        """Subtests: a room is closed whose client takes nothing until then; how long it took from QUIT on."""
        cells, found = b"~A" * 40, []
        room = self.room("serve", "--keep-seats", seats=1)
        console = room.console(FEW)
        self.same("a seat", console.say(b"DEPOSIT 0 " + cells + b"\n"), b"OK\n")
        send_until_none_is_taken(console, b"EXAMINE 0 40\n" * 1000)
        begun = time.monotonic()
        room.type(b"QUIT\n")
        hear_late(console, found)
        took = time.monotonic() - begun
        replies = found[0].count(b"\n")
        self.same("whole replies", found[0], (cells + b"\n") * replies)
        self.expect("a reply for each entry of the journal", room.end(b""), 0, f"{room.ready}JOURNAL {1 + replies}\n")
        return took

    def test_a_client_that_reads_after_the_rooms_end_has_whole_replies(self):
        """It sends lines until nothing more is taken, and begins to read two seconds after QUIT: a reply for which there
        was no room is left out, and none is cut."""
        cells = b"~A" * 40
        room = self.room("serve", "--keep-seats", seats=1)
        with room.console(FEW) as console:
            self.same("a seat", console.say(b"DEPOSIT 0 " + cells + b"\n"), b"OK\n")
            send_until_none_is_taken(console, b"EXAMINE 0 40\n" * 1000)
            room.type(b"QUIT\n")
            time.sleep(TOO_LATE)
            text = console.hear()
        replies = text.count(b"\n")
        self.same("whole replies", text, (cells + b"\n") * replies)
        ran = room.end(b"")
        entries = int(ran.stdout.rpartition(b" ")[2])
        wrong = "" if 0 < replies and entries - 1 - replies in (0, 1) else f"{replies} for a journal of {entries}"
        self.check("a reply for each entry, but for a last one without room", wrong)

    def test_a_client_that_never_reads_does_not_hold_the_rooms_end(self):
        """It sends lines without an entry until nothing more is taken; then the room still ends."""
        room = self.room("serve", "--keep-seats", seats=2)
        with room.console(FEW) as mute, room.console() as other:
            send_until_none_is_taken(mute, b"GLANCE 9999\n" * 1000)
            self.same("another operator is answered", other.say(b"EXAMINE 0\n"), b" \n")
            room.type(b"QUIT\n")
            self.same("the other console's end", other.hear(), b"")
            other.close()
            self.same("the room has ended", room.process.wait(SECONDS), 0)


if __name__ == "__main__":
    unittest.main()
