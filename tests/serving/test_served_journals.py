"""Journals of served rooms: kept, taken up by a room again, denied, not written, not synced, and taken up after a
kill."""
import os
import random
import resource
import shutil
import signal
import socket
import threading
import unittest

from tests.preloaded import needs_compiler, preloading
from tests.support import PROGRAM, SECONDS, UNWRITTEN, ProgramTest, at_a_port, program, shell, wait_until

# How many served rooms are killed, and how many operators each of them has.
KILLS = 200
OPERATORS = 8
# How many commands an operator has ready: more than are answered before a kill.
READY_LINES = 2_000
ONE_ENTRY = b"JOURNAL1 4000\n1\t1\tSTART 0001\tOK\n"
UNKEPT = f"{UNWRITTEN}ibm1401: session ended: UNKEPT\n"


class Kept(ProgramTest):
    """A served room's journal is kept and taken up."""

    def test_each_command_is_a_line_with_its_seat(self):
        path = self.folder / "class.journal"
        room = self.room("serve", "--journal", path, seats=2)
        with room.console() as first, room.console() as second:
            first.say(b"DEPOSIT 0700 ~999\n")
            second.say(b"DEPOSIT 0710 A\n")
            self.expect("it is in use", program("resume", path), 1, "", f"ibm1401: {path}: is in use\n")
        self.ended(room, "the room", 2)
        text = b"JOURNAL1 4000\n1\t1\tDEPOSIT 0700 ~999\tOK\n2\t2\tDEPOSIT 0710 A\tOK\n"
        self.holds("each command is a line", path, text)
        ran = program("serve", "--port", "1", "--seats", "1", "--journal", path)
        self.expect("a journal isn't overwritten", ran, 1, "", f"ibm1401: {path}: already exists\n")
        ran = program("resume", path, lines=b"GLANCE 0710\nEXAMINE 0700 3\n")
        self.expect("a console goes on where the room ended", ran, 0, "AFTER 2 A\n~999\n")
        self.holds("in the same file", path, text + b"3\t0\tEXAMINE 0700 3\t~999\n")
        shown = program("journal", "--seat", "2", path)
        self.expect("one seat's commands", shown, 0, "2 seat 2  DEPOSIT 0710 A               OK\n")


class Resumed(ProgramTest):
    """A served journal goes on at its seats, in the same file or in a new one; what has no seat there is refused."""

    def setUp(self):
        self.path = self.folder / "friday.journal"
        room = self.room("serve", "--journal", self.path, seats=3)
        with room.console() as first, room.console() as second:
            first.say(b"DEPOSIT 0700 ~999\n")
            second.say(b"DEPOSIT 0700 ~111\n")
        room.end()
        self.text = b"JOURNAL1 4000\n1\t1\tDEPOSIT 0700 ~999\tOK\n2\t2\tDEPOSIT 0700 ~111\tOK\n"
        self.assertEqual(self.text, self.path.read_bytes())

    def test_in_the_same_file(self):
        with self.path.open("ab") as file:
            file.write(b"3\t1\tEXAM")
        room = self.room("resume", self.path, seats=2)
        with room.console() as first, room.console() as second:
            self.same("it has what its journal did", first.say(b"EXAMINE 0700 3\n"), b"~111\n")
            self.same("its seats have seen it", second.say(b"GLANCE 0700\n"), b"AFTER 3 ~1\n")
            ran = program("resume", self.path)
            self.expect("it is in use", ran, 1, "", f"ibm1401: {self.path}: is in use\n")
        self.ended(room, "the room", 3, error="ibm1401: line 4 was unfinished and was discarded\n")
        self.holds("it went on in the same file", self.path, self.text + b"3\t1\tEXAMINE 0700 3\t~111\n")

    def test_in_a_new_file_without_a_command(self):
        new = self.folder / "monday.journal"
        room = self.room("resume", self.path, "--without", "2", "--journal", new, "--sync", seats=2)
        with room.console(), room.console() as second:
            self.same("the command is undone", second.say(b"EXAMINE 0700 3\n"), b"~999\n")
        self.ended(room, "the room", 2)
        text = b"JOURNAL1 4000\n1\t1\tDEPOSIT 0700 ~999\tOK\n2\t2\tEXAMINE 0700 3\t~999\n"
        self.holds("the new journal has what is left", new, text)
        self.holds("the old one stays", self.path, self.text)

    def test_looked_at_as_it_was(self):
        room = self.room("resume", self.path, "--until", "1", seats=1)
        with room.console() as only:
            self.same("the machine", only.say(b"EXAMINE 0700 3\n"), b"~999\n")
        self.ended(room, "the room", 2)
        self.holds("nothing of that is kept", self.path, self.text)

    def test_seats_too_few(self):
        call = ["resume", self.path, "--port", "1", "--seats"]
        error = "ibm1401: there is no seat {}, whose commands the journal has\n"
        self.expect("one of two", program(*call, "1"), 1, "", error.format(2))
        program("resume", self.path, lines=b"EXAMINE 0700\n")
        name = "the commands of a console have no seat in the same file"
        self.expect(name, program(*call, "2"), 1, "", error.format(0))
        taken = self.folder / "taken.journal"
        room = self.room("resume", self.path, "--journal", taken, seats=2)
        self.ended(room, "in a new file seat 1 gives them", 3)
        self.holds("each with its answer", taken, self.text + b"3\t1\tEXAMINE 0700 1\t~1\n")

    def test_each_command_is_given_again_by_its_seat(self):
        """Those of a console are given by seat 1; what fits the machine is given too."""
        entries = [(1, "FIT LENGTHS"), (2, "START 0702"), (0, "START 0700"), (2, "FIT NONE"), (2, "START 0703")]
        lines = ["JOURNAL1 4000\n", *(f"{k}\t{seat}\t{command}\tOK\n" for k, (seat, command) in enumerate(entries, 1))]
        self.path.write_text("".join(lines))
        new = self.folder / "again.journal"
        self.ended(self.room("resume", self.path, "--journal", new, seats=2), "the room", 5)
        self.holds("the new journal", new, "".join(lines).replace("3\t0\t", "3\t1\t").encode())

    def test_a_command_that_is_not_kept_again(self):
        """No operator comes, and the new journal isn't left."""

        def limited():
            signal.signal(signal.SIGXFSZ, signal.SIG_IGN)
            resource.setrlimit(resource.RLIMIT_FSIZE, (50, 50))

        new = self.folder / "short.journal"
        call = ["resume", self.path, "--journal", new, "--seats", "2"]
        ran = at_a_port(lambda port: program(*call, "--port", str(port), preexec_fn=limited))
        self.expect("the program", ran, 1, "", "ibm1401: session ended: UNKEPT\n")
        self.check("the new journal", "it is left" if new.exists() else "")
        self.holds("the old one stays", self.path, self.text)

    def test_refused(self):
        self.path.with_name("taken.journal").write_bytes(b"")
        taken, call = self.folder / "taken.journal", ["resume", self.path, "--port", "1", "--seats", "2"]
        ran = program(*call, "--journal", taken)
        self.expect("a new journal isn't overwritten", ran, 1, "", f"ibm1401: {taken}: already exists\n")
        self.expect("no such entry", program(*call, "--until", "9"), 1, "", "ibm1401: there is no entry 9\n")
        needed = "error: the following required arguments were not provided:..."
        self.expect("a port needs seats", program("resume", self.path, "--port", "1"), 2, "", needed)
        self.expect("seats need a port", program("resume", self.path, "--seats", "1"), 2, "", needed)
        with socket.socket() as busy:
            busy.bind(("127.0.0.1", 0))
            busy.listen()
            ran = program("resume", self.path, "--port", str(busy.getsockname()[1]), "--seats", "2")
            self.expect("a port that is taken", ran, 1, "", "ibm1401: port refused\n")
        self.holds("the file stays as it was", self.path, self.text)


class Unwritten(ProgramTest):
    """Journals and outputs that can't be written."""

    def test_an_entry_that_cannot_be_written(self):
        """No reply, the console's end, and every later command is refused."""

        def limited():
            signal.signal(signal.SIGXFSZ, signal.SIG_IGN)
            resource.setrlimit(resource.RLIMIT_FSIZE, (50, 50))

        room = self.room("serve", "--journal", self.folder / "full.journal", seats=2, preexec_fn=limited)
        with room.console() as first, room.console() as second:
            self.same("a command that is kept", first.say(b"DEPOSIT 0700 A\n"), b"OK\n")
            self.same("a command that isn't has no reply", first.say(b"DEPOSIT 0700 B\n"), b"")
            self.same("its console has ended", first.hear(), b"")
            self.same("a glance doesn't show it", second.say(b"GLANCE 0700\n"), b"AFTER 1 A\n")
            self.same("every later command is refused", second.say(b"EXAMINE 0700\n"), b"FAULT 4 UNKEPT\n")
        self.ended(room, "the room", 2, status=1, error=UNKEPT)

    def test_ready_that_cannot_be_written(self):
        path, new, newer = (self.folder / each for each in ("unheard", "unheard.new", "unheard.newer"))
        path.write_bytes(ONE_ENTRY)
        for name, words in [
            ("--keep-seats", ["serve", "--keep-seats"]),
            ("serve --journal", ["serve", "--journal", new]),
            ("resume", ["resume", path]),
            ("resume --journal", ["resume", path, "--journal", newer]),
        ]:
            for output in (">&-", "> /dev/full"):
                call = f'"$0" "$@" {output}'
                ran = at_a_port(lambda port: shell(call, *words, "--seats", "1", "--port", str(port)))
                self.expect(f"{name} {output}", ran, 1, "", "ibm1401: cannot write\n")
                new.unlink(missing_ok=True)
                newer.unlink(missing_ok=True)
        self.holds("the journal is as it was", path, ONE_ENTRY)

    def test_the_last_line_that_cannot_be_written(self):
        path = self.folder / "unheard.journal"
        path.write_bytes(ONE_ENTRY)
        room = self.room("resume", path, seats=1)
        room.process.stdout.close()
        with room.console() as only:
            self.same("a command is answered", only.say(b"START 2\n"), b"OK\n")
            room.type(b"QUIT\n")
            room.process.stdin.close()
            error, status = room.process.stderr.read(), room.process.wait(SECONDS)
        self.same("the end", (status, error), (1, b"ibm1401: cannot write\n"))
        self.holds("but the command is kept", path, ONE_ENTRY + b"2\t1\tSTART 0002\tOK\n")


class Denied(ProgramTest):
    """A journal's file that may not be read or written, and a folder in which none may be made."""

    def setUp(self):
        locked = self.folder / "locked"
        locked.mkdir()
        self.path, self.new, self.program = locked / "class.journal", locked / "new.journal", self.folder / "program"
        self.path.write_bytes(ONE_ENTRY)
        shutil.copy(PROGRAM, self.program)
        for path, mode in (self.path, 0o444), (locked, 0o555), (self.folder, 0o755):
            path.chmod(mode)

    def run_denied(self, *words):
        """A run of the program by somebody who isn't root."""
        how = {"user": "nobody", "extra_groups": []} if os.geteuid() == 0 else {}
        return program(*words, lines=b"START 2\n", executable=self.program, **how)

    def test_a_file_that_is_read_only(self):
        refused = f"ibm1401: {self.path}: permission denied\n"
        for words in ["resume", self.path], ["resume", self.path, "--port", "1401", "--seats", "1"]:
            self.expect(f"{len(words)} words", self.run_denied(*words), 1, "", refused)
        self.expect("it is checked", self.run_denied("journal", "--check", self.path), 0, "1 entries\n")
        self.holds("it stays as it is", self.path, ONE_ENTRY)

    def test_a_folder_that_is_read_only(self):
        refused, port = f"ibm1401: {self.new}: permission denied\n", ["--port", "1401", "--seats", "1"]
        for words in ["console"], ["serve", *port], ["resume", self.path, *port]:
            self.expect(words[0], self.run_denied(*words, "--journal", self.new), 1, "", refused)
        self.holds("the journal there stays as it is", self.path, ONE_ENTRY)


@needs_compiler
class Unsynced(ProgramTest):
    """A served entry that isn't synced: no reply, and every later command is refused."""

    def hold(self, name, words, synced, path, text):
        """Subtests: the sync of this number is refused, for a second command, which the file has all the same."""
        how = preloading("refuse_sync", EVENTS_FILE=self.folder / "events", REFUSED_SYNC=synced)
        room = self.room(*words, "--sync", seats=2, **how)
        with room.console() as first, room.console() as second:
            self.same("a command that is synced", first.say(b"START 1\n"), b"OK\n")
            self.same("a command that isn't has no reply", first.say(b"START 2\n"), b"")
            self.same("every later command is refused", second.say(b"START 3\n"), b"FAULT 4 UNKEPT\n")
        entry = text.count(b"\n")
        self.ended(room, name, entry + 1, status=1, error=UNKEPT)
        text += b"%d\t1\tSTART 0001\tOK\n%d\t1\tSTART 0002\tOK\n" % (entry, entry + 1)
        self.holds("its line is there", path, text)

    def test_a_new_file(self):
        """The folder and the first line are synced before anybody comes."""
        path = self.folder / "synced.journal"
        self.hold("the room", ["serve", "--journal", path], 4, path, b"JOURNAL1 4000\n")

    def test_the_same_file(self):
        """The folder alone is synced before anybody comes."""
        path = self.folder / "synced.journal"
        path.write_bytes(ONE_ENTRY)
        self.hold("the room", ["resume", path], 3, path, ONE_ENTRY)


class Operator(threading.Thread):
    """An operator who sends each command when the one before it is answered, until the connection breaks."""

    def __init__(self, room, number):
        super().__init__()
        self.lines = [b"START %d\n" % (400 * number + i % 400) for i in range(READY_LINES)]
        self.console = room.console()
        self.answered = 0

    def run(self):
        try:
            for line in self.lines:
                self.console.sendall(line)
                if self.console.recv(100) != b"OK\n":
                    return
                self.answered += 1
        except OSError:
            return


def wrong_entries(entries, operators):
    """What is wrong with the entries that a killed room has kept: each operator's commands are those of one seat, in
    order: all that were answered, and at most one more."""
    for operator in operators:
        wanted = [b"START %04d" % int(line[6:]) for line in operator.lines]
        own = set(wanted)
        found = [entry for entry in entries if entry[2] in own]
        if len({entry[1] for entry in found}) > 1:
            return f"the commands of one operator have {len({entry[1] for entry in found})} seats"
        if not operator.answered <= len(found) <= operator.answered + 1:
            return f"{operator.answered} answered, {len(found)} kept"
        if [entry[2] for entry in found] != wanted[:len(found)]:
            return "other commands, or another order"
    return ""


class Killed(ProgramTest):
    """Rooms killed at moments of chance while eight operators work: what was answered is there, and the room that is
    taken up has the machine of the last command."""

    def test_what_was_answered_is_kept(self):
        chance = random.Random(1401)
        for turn in range(KILLS):
            path = self.folder / f"{turn}.journal"
            room = self.room("serve", "--journal", path, seats=OPERATORS)
            operators = [Operator(room, number) for number in range(OPERATORS)]
            for operator in operators:
                operator.start()
            many = chance.randrange(200)
            wait_until(lambda: sum(operator.answered for operator in operators) >= many)
            room.kill()
            for operator in operators:
                operator.join()
                operator.console.close()
            answered = sum(operator.answered for operator in operators)
            self.check(f"turn {turn}, killed after {answered} replies", self.wrong_with(path, operators))
            path.unlink()

    def wrong_with(self, path, operators):
        """What is wrong with the journal of a killed room, and with the machine that it gives."""
        entries = [line.split(b"\t") for line in path.read_bytes().splitlines(True)[1:] if line.endswith(b"\n")]
        ran = program("resume", path, lines=b"REGS\n")
        at = b"I=%05d" % int(entries[-1][2].split()[1]) if entries else b"I=00000"
        machine = "" if ran.returncode == 0 and at in ran.stdout else f"{ran.stdout}, not {at}: {ran.stderr}"
        return wrong_entries(entries, operators) or machine


if __name__ == "__main__":
    unittest.main()
