"""`serve`: operators at one machine, a seat each, until the last of them leaves; and what is refused."""
import contextlib
import errno
import re
import resource
import select
import signal
import socket
import struct
import threading
import unittest

from tests.limits import bounds_memory, within
from tests.support import (EXAMPLES, MOST_ENTRIES, REPLY_SECONDS, SECONDS, TOP, ProgramTest, at_a_port, at_most,
                           difference, misuse, program, shell, wait_until)

# How many commands each of eight operators gives who meddle with one machine.
MEDDLINGS = 600


class Served(ProgramTest):
    """Consoles at one machine."""

    def test_two_operators(self):
        room = self.plain_room(2)
        with room.console() as one, room.console() as two:
            self.same("seat 1 deposits", one.say(b"DEPOSIT 0500 ~K\n"), b"OK\n")
            self.same("seat 2 sees it", two.say(b"EXAMINE 0500\n"), b"~K\n")
            glances = b"AFTER 2 ~K\nGLANCE FAULT 1 RANGE\n"
            self.same("a glance shows both commands", two.say(b"GLANCE 0500\nGLANCE 4000\n"), glances)
            self.same("a line that isn't known", one.say(b"HELLO\n"), b"ERROR 1 WORD\n")
            with room.console() as three:
                three.sendall(b"EXAMINE 0\n")
                self.same("seat 1 quits", one.say(b"QUIT\n"), b"BYE\n")
                self.same("seat 2 quits", two.say(b"QUIT\n"), b"BYE\n")
                self.ended(room, "the room ends with its last console", 2)
                heard = three.hear()
                self.check("nobody answers a third console", repr(heard) if b"\n" in heard else "")

    def test_a_room_of_1400_places(self):
        room = self.plain_room(1, "--size", "1400")
        with room.console() as one:
            replies = one.say(b"EXAMINE 1399\nEXAMINE 1400\nQUIT\n")
            self.same("the last place", replies, b" \nREFUSED 1 ADDRESS\nBYE\n")
        self.ended(room, "its journal", 2)

    def test_many_lines_at_once(self):
        room = self.plain_room(1)
        with room.console() as one:
            self.same("a thousand lines", one.say(b"EXAMINE 0\n" * 1_000), b" \n" * 1_000)
            one.sendall(b"QUIT\nDEPOSIT 0 K\n")
            self.same("nothing is answered after QUIT", one.hear(), b"BYE\n")
        self.ended(room, "nothing is carried out after QUIT", 1_000)

    def test_a_room_listens_at_127_0_0_1_alone(self):
        room = self.plain_room(1)
        with socket.socket() as elsewhere:
            elsewhere.settimeout(REPLY_SECONDS)
            self.assertEqual(errno.ECONNREFUSED, elsewhere.connect_ex(("127.0.0.2", room.port)))

    def test_a_signal_ends_a_room_at_once(self):
        room = self.plain_room(1)
        room.process.terminate()
        room.process.communicate(timeout=SECONDS)
        self.assertEqual(-signal.SIGTERM, room.process.returncode)

    def test_glances_are_answered_while_a_program_runs(self):
        room, runs = self.plain_room(2), 200
        with room.console() as one, room.console() as two:
            self.same("a program that goes round", one.say(b"DEPOSIT 0500 ~B500~.\nSTART 0500\n"), b"OK\nOK\n")
            one.sendall(b"RUN 1000000\n" * runs)
            shown = two.say(b"GLANCE 0500\n" * 100)
            ready = select.select([one], [], [], 0)[0]
            ended = one.recv(1 << 16) if ready else b""
            self.same("100 glances are answered", shown.count(b" ~B\n"), 100)
            self.check("before the runs end", "" if ended.count(b"\n") < runs else "all have ended")
            one.sendall(b"QUIT\n")
            stopped = b"STOP 01 LIMIT STEPS 1000000 I 00500\n" * runs
            one.settimeout(SECONDS)
            self.same("the runs, each to its end", ended + one.hear(), stopped + b"BYE\n")
            two.sendall(b"QUIT\n")
        self.ended(room, "its journal", 2 + runs)

    def test_long_runs_are_shown_to_both_seats(self):
        """A program without an end, at 500, adds 1 to the digits at 607 to 610 in every second instruction. After a
        long run each seat is shown what it did, and after a short command too."""
        room = self.plain_room(2)
        with room.console() as one, room.console() as two:
            self.same("the program", one.say(b"DEPOSIT 0500 ~A600610~B500~.\nDEPOSIT 0600 ~1\n"), b"OK\nOK\n")
            self.same("its digits", one.say(b"DEPOSIT 0607 ~0000\nSTART 0500\n"), b"OK\nOK\n")
            self.steps(one, 10_000)
            self.shows("a seat that gave no command", two, 5, b"5000")
            self.same("a short command of its own", two.say(b"DEPOSIT 0700 ~K\n"), b"OK\n")
            self.shows("that seat", two, 6, b"5000")
            self.steps(one, 4_096)
            self.steps(two, 4_096)
            self.shows("the second to run", two, 8, b"9096")
            self.steps(two, 4)
            self.shows("after a short run", two, 9, b"9098")
            self.shows("the first to run", one, 9, b"9098")
            self.same("the other's character", one.say(b"GLANCE 0700\n"), b"AFTER 9 ~K\n")
        self.ended(room, "its journal", 9)

    def steps(self, console, many):
        """A subtest: a run of the loop makes this many steps and is back at its beginning."""
        stopped = b"STOP 01 LIMIT STEPS %d I 00500\n" % many
        self.same(f"{many} steps", console.say(b"RUN %d\n" % many), stopped)

    def shows(self, name, console, after, digits):
        """A subtest: a console is shown these digits as soon as it is shown this many commands."""
        wait_until(lambda: console.say(b"GLANCE 0000\n") == b"AFTER %d  \n" % after)
        replies = b"".join(b"AFTER %d %b%c\n" % (after, b"" if at else b"~", digit) for at, digit in enumerate(digits))
        found = console.say(b"GLANCE 607\nGLANCE 608\nGLANCE 609\nGLANCE 610\n")
        self.same(f"{name}, after {after} commands", found, replies)

    def test_the_example_of_operators_who_share_a_machine(self):
        example = (EXAMPLES / "two_operators.consoles").read_text()
        shown = f"```text\n{example}```" in (TOP / "docs/SERVING.md").read_text()
        self.check("SERVING.md shows it", "" if shown else "it shows another")
        room, asked = self.plain_room(2), {}
        with room.console() as one, room.console() as two:
            consoles = {"1": one, "2": two}
            for number, line in enumerate(example.splitlines(), 1):
                seat, way, text = line[0], line[2], f"{line[4:]}\n".encode()
                if way == ">":
                    asked[seat] = text
                else:
                    self.same(f"line {number}: the reply of seat {seat}", consoles[seat].say(asked[seat]), text)
        self.ended(room, "its journal", 6)

    def test_a_full_journal_is_refused_at_each_seat(self):
        room = self.plain_room(2)
        with room.console() as one, room.console() as two:
            replies = b"".join(one.say(b"EXAMINE 0\n" * 1_000) for _ in range(MOST_ENTRIES // 1_000))
            self.same("a seat fills the journal", replies, b" \n" * MOST_ENTRIES)
            refused = b"FAULT 2 JOURNAL FULL\nAFTER %d  \nBYE\n" % MOST_ENTRIES
            self.same("it is refused the next command", one.say(b"REGS\nGLANCE 0\nQUIT\n"), refused)
            self.same("and so is the other seat", two.say(b"REGS\nGLANCE 0\nQUIT\n"), refused)
        self.ended(room, "the journal", MOST_ENTRIES)


def operate(room, seat, wrong):
    """Gives 1,000 lines, deposits and questions in a region of the seat's own, and compares each reply."""
    region, cells, lines, replies = 1000 + 40 * seat, " " * 40, [], []
    for k in range(500):
        text = "".join("0123456789ABCDEFGHIJ"[(seat + k * place) % 20] for place in range(1, 2 + k % 40))
        cells = text + cells[len(text) :]
        lines += [f"DEPOSIT {region} {text}\n", f"EXAMINE {region} 40\n"]
        replies += ["OK\n", f"{cells}\n"]
    with room.console() as console:
        heard = console.say("".join(lines).encode()) + console.say(b"QUIT\n")
    wrong[seat] = difference("the replies", heard, "".join(replies) + "BYE\n")


def step_together(console, given):
    """Takes 499 steps at a machine that others step too, asks for the registers after each, and keeps the replies."""
    with console:
        lines = "REGS\n" + "RUN 1\nREGS\n" * 499
        replies = console.say(lines.encode()).decode().splitlines()
        given.append([*zip(lines.splitlines(), replies, strict=False)])
        console.say(b"QUIT\n")


def order_of(given):
    """Where a line comes in the order of all: by the I register in its reply, a step before a question."""
    line, reply = given
    place = re.search(r"I[ =](\d{5})", reply)
    return (int(place[1]) if place else -1, line == "REGS")


class EightConsoles(ProgramTest):
    """Eight operators at once."""

    def in_threads(self, target, *arguments):
        """Calls a function in a thread for each of these."""
        threads = [threading.Thread(target=target, args=each) for each in arguments]
        for thread in threads:
            thread.start()
        for thread in threads:
            thread.join(SECONDS)

    def test_1000_lines_each(self):
        room, wrong = self.plain_room(8), {}
        self.in_threads(operate, *((room, seat, wrong) for seat in range(8)))
        for seat in range(8):
            self.check(f"operator {seat}", wrong.get(seat, "it stopped"))
        self.ended(room, "the journal", 8000)

    def test_replies_are_those_of_one_console(self):
        """Operators step one machine from place to place, and their replies show the order of their commands. In that
        order the lines of all are answered alike by one console."""
        room, given_by = self.plain_room(8), []
        places = [f"DEPOSIT {at} {'~N' * min(40, 4000 - at)}\n" for at in range(1, 4000, 40)] + ["START 1\n"]
        consoles = [room.console() for _ in range(8)]
        replies = consoles[0].say("".join(places).encode())
        self.same("a machine of no operations", replies, b"OK\n" * len(places))
        self.in_threads(step_together, *((console, given_by) for console in consoles))
        given = [line for lines in given_by for line in lines]
        self.same("each line is answered", len(given), 8 * 999)
        self.check("no seat goes back", ["one does" for lines in given_by if lines != sorted(lines, key=order_of)])
        given.sort(key=order_of)
        replayed = program("console", lines="".join([*places, *(f"{line}\n" for line, _ in given)]).encode())
        replies = "OK\n" * len(places) + "".join(f"{reply}\n" for _, reply in given)
        self.same("one console's replies", replayed.stdout, replies)
        self.ended(room, "the journal", len(places) + 8 * 999)


    def test_their_journal_is_one(self):
        """Each command is in it once, in its operator's order, with the answer that the operator heard, and a machine
        alone gives each answer again. The glances between them show more and more commands."""
        path, heard = self.folder / "eight.journal", {}
        room = self.room("serve", "--journal", path, seats=8)
        consoles = [room.console() for _ in range(8)]
        self.in_threads(meddle, *((console, operator, heard) for operator, console in enumerate(consoles)))
        self.ended(room, "the room", 8 * MEDDLINGS)
        entries = [line.split("\t") for line in path.read_text().splitlines()[1:]]
        answers = [[answer for _, by, _, answer in entries if by == str(seat)] for seat in range(1, 9)]
        glances = [[int(line.split()[1]) for line in lines if line.startswith("AFTER")] for lines in heard.values()]
        commands = [[line for line in lines if not line.startswith("AFTER")] for lines in heard.values()]
        self.same("each operator's answers are a seat's", sorted(commands), sorted(answers))
        self.same("each has as many", [len(each) for each in answers], [MEDDLINGS] * 8)
        wrong = [seen for seen in glances if len(seen) != MEDDLINGS or seen != sorted(set(seen))]
        self.check("each glance shows more commands than the one before", ["one doesn't"] if wrong else "")
        checked = program("journal", "--check", path)
        self.expect("a machine alone", checked, 0, f"{8 * MEDDLINGS} entries\n")


def meddle(console, operator, heard):
    """Gives deposits, starts, runs and questions in turn, where all operators do, with a glance after each, and notes
    what is answered."""
    commands = "DEPOSIT {0} ~.", "DEPOSIT {0} ~{1}", "START {0}", "RUN 3", "EXAMINE {0} 10", "REGS"
    given = [(commands[k % 6], 500 + k % 40) for k in range(MEDDLINGS)]
    lines = "".join(f"{command}\nGLANCE {{0}}\n".format(at, operator) for command, at in given).encode()
    with console:
        heard[operator] = console.say(lines).decode().splitlines()


def send_unread(console):
    """Sends questions and reads no reply, until no more are taken."""
    console.settimeout(0.5)
    try:
        for _ in range(20_000):
            console.sendall(b"HELLO\n" * 100)
    except OSError:
        pass


def reset(console):
    """Has a connection reset when it is closed."""
    console.setsockopt(socket.SOL_SOCKET, socket.SO_LINGER, struct.pack("ii", 1, 0))


def cut_off(console):
    """Sends a part of a line, and has the connection reset."""
    console.sendall(b"EXAMINE 0\nDEPOSIT 05")
    console.recv(100)
    reset(console)


def break_off_in_a_reply(console):
    """Asks for forty cells, reads a few of them, and has the connection reset."""
    console.sendall(b"EXAMINE 0 40\n")
    console.recv(5)
    reset(console)


def send_endlessly(console):
    """Sends more bytes than a session reads, and no line feed."""
    try:
        for _ in range(170):
            console.sendall(b" " * 100_000)
    except OSError:
        pass


class Hindrances(ProgramTest):
    """What one operator does must not keep another from being answered."""

    def hinder(self, by, journal):
        """Subtests: while one operator does this, and afterwards, another is answered."""
        room = self.plain_room(2)
        one = room.console()
        by(one)
        with room.console() as two:
            self.same("another is answered meanwhile", two.say(b"EXAMINE 0\n" * 100), b" \n" * 100)
            one.close()
            self.same("and afterwards", two.say(b"EXAMINE 0\nQUIT\n"), b" \nBYE\n")
        self.ended(room, "the journal", journal)

    def test_nothing_is_sent(self):
        self.hinder(lambda one: None, 101)

    def test_a_line_breaks_off(self):
        self.hinder(lambda one: one.sendall(b"EXAMINE 0\nDEPOSIT 05"), 102)

    def test_a_line_is_cut_off(self):
        self.hinder(cut_off, 102)

    def test_a_reply_is_cut_off(self):
        self.hinder(break_off_in_a_reply, 102)

    def test_a_line_without_an_end(self):
        self.hinder(lambda one: one.sendall(b" " * 100_000), 101)

    def test_a_line_of_17000000_bytes(self):
        self.hinder(send_endlessly, 101)

    def test_no_reply_is_read(self):
        self.hinder(send_unread, 101)

    def test_the_sending_half_is_closed(self):
        room = self.plain_room(2)
        with room.console() as one, room.console() as two:
            one.sendall(b"EXAMINE 0")
            one.shutdown(socket.SHUT_WR)
            self.same("it is answered", one.hear(), b" \n")
            self.same("another after that", two.say(b"EXAMINE 0\nQUIT\n"), b" \nBYE\n")
        self.ended(room, "the journal of both", 2)


def take(port):
    """A socket that has a port, unless it can't be had here: then it is another's, or not this user's."""
    taken = socket.socket()
    try:
        taken.bind(("127.0.0.1", port))
        taken.listen()
    except OSError:
        pass
    return taken


def for_one_thread():
    """Bounds a process before it begins: there is memory for one thread's stack and no other's."""
    resource.setrlimit(resource.RLIMIT_STACK, (8 << 20, resource.getrlimit(resource.RLIMIT_STACK)[1]))
    within(12_000)()


class Refused(ProgramTest):
    """What the program refuses to serve, and what ends the service early."""

    def test_misused(self):
        usage = "serve --seats <K> <--port <P>|--page <PORT>>"
        missing = "the following required arguments were not provided:\n "
        for words, error in [
            ("", misuse(f"{missing} --seats <K>\n  <--port <P>|--page <PORT>>", usage)),
            ("--port 1401", misuse(f"{missing} --seats <K>", usage)),
            ("--page 8080", misuse(f"{missing} --seats <K>", usage)),
            ("--seats 2", misuse(f"{missing} <--port <P>|--page <PORT>>", usage)),
            ("--port 0 --seats 2", misuse("invalid value '0' for '--port <P>': 0 is not in 1..=65535")),
            ("--port 65536 --seats 2", misuse("invalid value '65536' for '--port <P>': 65536 is not in 1..=65535")),
            ("--port 1401 --seats 0", misuse("invalid value '0' for '--seats <K>': 0 is not in 1..=8")),
            ("--port 1401 --seats 9", misuse("invalid value '9' for '--seats <K>': 9 is not in 1..=8")),
            ("--port 1401 --seats x", misuse("invalid value 'x' for '--seats <K>': invalid digit found in string")),
            ("--port 1401 --seats 2 --size 65536",
             misuse("invalid value '65536' for '--size <N>': 65536 is not in 0..=65535")),
            ("--port 1401 --seats 2 extra",
             misuse("unexpected argument 'extra' found", usage.replace("serve", "serve [OPTIONS]"))),
        ]:
            self.expect(f"serve {words} ends with 2", program("serve", *words.split()), 2, "", error)
        self.expect("the help of serve", program("serve", "--help"), 0, "Opens a machine to operators...")

    def test_the_size_is_looked_at_before_the_port(self):
        for words in "--port 1401 --seats 2", "--seats 8 --port 65535", "--port 1 --seats 1":
            for size in "0", "1401":
                ran = program("serve", *words.split(), "--size", size)
                self.expect(f"serve {words} --size {size}", ran, 1, "", "ibm1401: size refused\n")
        with take(0) as taken:
            call = ["serve", "--port", str(taken.getsockname()[1]), "--seats", "2"]
            for size, fault in ("17", "size"), ("1401", "size"), ("1400", "port"):
                ran = program(*call, "--size", size)
                self.expect(f"a port that is taken, --size {size}", ran, 1, "", f"ibm1401: {fault} refused\n")

    def test_a_port_that_is_taken(self):
        with take(0) as taken:
            ran = program("serve", "--port", str(taken.getsockname()[1]), "--seats", "2")
            self.expect("any port", ran, 1, "", "ibm1401: port refused\n")
        for port, words in (1, "--port 1 --seats 1"), (65535, "--seats 8 --port 65535 --size 1400"):
            with take(port):
                ran = program("serve", *words.split())
                self.expect(f"serve {words}", ran, 1, "", "ibm1401: port refused\n")

    def test_an_output_that_is_closed(self):
        ran = at_a_port(lambda port: shell('"$0" serve --port "$1" --seats 1 >&-', str(port)))
        self.expect("READY can't be written", ran, 1, "", "ibm1401: cannot write\n")
        room = self.plain_room(1)
        room.process.stdout.close()
        with room.console() as one:
            self.same("a room whose output was closed", one.say(b"QUIT\n"), b"BYE\n")
            error, status = room.process.stderr.read(), room.process.wait(SECONDS)
        self.same("its last line can't be written", (status, error), (1, b"ibm1401: cannot write\n"))

    def hold_early(self, error, **how):
        """Subtests: a service ends with this error once its first console has ended."""
        room = self.plain_room(3, **how)
        with room.console() as one:
            # The next connection waits to be accepted, or finds the port closed by then.
            with contextlib.suppress(ConnectionRefusedError, ConnectionResetError):
                self.addCleanup(room.console().close)
            self.same("the first console goes on", one.say(b"EXAMINE 0\n"), b" \n")
            self.same("to its end", one.say(b"EXAMINE 0\nQUIT\n"), b" \nBYE\n")
            self.ended(room, "the end", 2, status=1, error=f"ibm1401: {error}\n")

    def test_a_connection_that_is_not_accepted(self):
        self.hold_early("accept failed", **at_most(5))

    def test_a_thread_that_is_refused(self):
        bounds_memory(self)
        self.hold_early("thread refused", preexec_fn=for_one_thread)


if __name__ == "__main__":
    unittest.main()
