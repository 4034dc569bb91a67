"""The unit for systemd: its own command line, run as systemd runs it, stopped and started again."""
import os
import re
import shlex
import shutil
import subprocess
import unittest

from tests.support import EXAMPLES, PORTS_TRIED, PROGRAM, REPLY_SECONDS, Console, ProgramTest, a_port, run

UNIT = EXAMPLES / "ibm1401@.service"


def words_of(field, instance, state, unit=UNIT):
    """The words of a command line of the unit, as systemd gives them to the instance of this name."""
    line = re.search(rf"^{field}=\+?(.*)$", unit.read_text(), re.MULTILINE)[1]
    meant = {"%i": instance, "%S": str(state), "%t": str(state), "%%": "%", "$$": "$"}
    return [re.sub(r"%.|\$\$", lambda each: meant[each[0]], word) for word in shlex.split(line)]


class Unit(ProgramTest):
    """Rooms of the unit, with a folder of the test's own in place of /var/lib."""

    def start(self, prepare=lambda: subprocess.PIPE):
        """A room of the unit that is ready for consoles; before that its port is prepared, which gives its input. It is
        at another port if somebody else has taken this one meanwhile."""
        for _ in range(PORTS_TRIED):
            self.port = a_port()
            (self.folder / "ibm1401").mkdir(exist_ok=True)
            room, first = self.begin(prepare())
            if first or room.stderr.read() != b"ibm1401: port refused\n":
                break
        self.same("it is ready", first, b"READY\n")
        return room

    def begin(self, stdin=subprocess.PIPE):
        """A room of the instance that the port names, by the program under test in place of the installed one; and its
        first line."""
        words = words_of("ExecStart", self.port, self.folder)
        words = [str(PROGRAM) if word == "/usr/local/bin/ibm1401" else word for word in words]
        room = subprocess.Popen(words, stdin=stdin, stdout=subprocess.PIPE, stderr=subprocess.PIPE)
        self.addCleanup(lambda: [each.close() for each in (room.stdin, room.stdout, room.stderr) if each])
        self.addCleanup(room.wait, REPLY_SECONDS)
        self.addCleanup(room.kill)
        return room, room.stdout.readline()

    def again(self):
        """A room of the same instance, started again."""
        room, first = self.begin()
        self.same("it is ready again", first, b"READY\n")
        return room

    def says(self, name, lines, replies):
        """A subtest: a console of the room is answered so."""
        with Console(int(self.port)) as console:
            self.same(name, console.say(lines), replies)

    def test_a_room_that_is_killed_goes_on_where_its_journal_is(self):
        room = self.start()
        self.says("before", b"DEPOSIT 0500 ~K\nSWITCH A ON\n", b"OK\nOK\n")
        room.kill()
        room.wait(REPLY_SECONDS)
        room = self.again()
        self.says("after", b"EXAMINE 0500\nREGS\n", b"~K\nI=00000 A=00000 B=00000 UNEQUAL=0 LOW=0 HIGH=0 OVERFLOW=0 "
                  b"SWITCHES=A------ HOPPER=000 STACKER=000 PAPER=000 FORM=0001 LINE=01\n")
        output, error = room.communicate(b"QUIT\n", REPLY_SECONDS)
        self.same("its end", (room.returncode, output, error), (0, b"JOURNAL 4\n", b""))

    def test_a_room_goes_on_with_the_last_of_the_journals_that_follow_each_other(self):
        room = self.start()
        self.says("before", b"DEPOSIT 0500 ~K\n", b"OK\n")
        room.kill()
        room.wait(REPLY_SECONDS)
        first = self.folder / f"ibm1401/{self.port}.journal"
        first.with_name(f"{first.name}.2").write_text("JOURNAL1 4000\n1\t1\tDEPOSIT 0500 ~L\tOK\n")
        room = self.again()
        self.says("after", b"EXAMINE 0500\n", b"~L\n")
        output, error = room.communicate(b"QUIT\n", REPLY_SECONDS)
        self.same("its end", (room.returncode, output, error), (0, b"JOURNAL 2\n", b""))

    def test_a_room_that_is_stopped_goes_on_too_until_its_journal_is_moved_away(self):
        room = self.start()
        self.says("before", b"DEPOSIT 0500 ~K\n", b"OK\n")
        self.same("its end", room.communicate(b"QUIT\n", REPLY_SECONDS)[0], b"JOURNAL 1\n")
        room = self.again()
        self.says("after", b"EXAMINE 0500\n", b"~K\n")
        self.same("its end after", room.communicate(b"QUIT\n", REPLY_SECONDS)[0], b"JOURNAL 2\n")
        (self.folder / f"ibm1401/{self.port}.journal").rename(self.folder / "moved")
        room = self.again()
        self.says("a new machine", b"EXAMINE 0500\n", b" \n")
        self.same("its end", room.communicate(b"QUIT\n", REPLY_SECONDS)[0], b"JOURNAL 1\n")

    def test_a_journal_that_lost_its_text_is_begun_again(self):
        """As after a loss of power: an empty file, in which no command is."""

        def prepare():
            (self.folder / f"ibm1401/{self.port}.journal").touch()
            return subprocess.PIPE

        room = self.start(prepare)
        self.says("a new machine", b"DEPOSIT 0500 ~K\n", b"OK\n")
        self.same("its end", room.communicate(b"QUIT\n", REPLY_SECONDS)[0], b"JOURNAL 1\n")

    def test_it_is_stopped_through_the_pipe_of_its_socket(self):
        pipe = re.search(r"^ListenFIFO=%t/(.*)$", (EXAMPLES / "ibm1401@.socket").read_text(), re.MULTILINE)[1]

        def prepare():
            path = self.folder / pipe.replace("%i", self.port)
            os.mkfifo(path)
            # systemd keeps both ends of it open.
            both = os.open(path, os.O_RDWR)
            self.addCleanup(os.close, both)
            return both

        room = self.start(prepare)
        stop = words_of("ExecStop", self.port, self.folder)
        stopped = subprocess.Popen(stop, env={**os.environ, "MAINPID": str(room.pid)})
        self.addCleanup(stopped.wait, REPLY_SECONDS)
        self.same("it ends", (room.wait(REPLY_SECONDS), room.stdout.read()), (0, b"JOURNAL 0\n"))
        self.same("what stops it waits for that", stopped.wait(REPLY_SECONDS), 0)

    @unittest.skipIf(shutil.which("systemd-analyze") is None, "there is no systemd-analyze")
    def test_systemd_reads_it(self):
        for name in "ibm1401@.service", "ibm1401@.socket":
            text = (EXAMPLES / name).read_text().replace("/usr/local/bin/ibm1401", str(PROGRAM))
            (self.folder / name.replace("@", "@1401")).write_text(text)
        ran = run(["systemd-analyze", "verify", "--man=no", self.folder / "ibm1401@1401.service"])
        said = [line for line in ran.stderr.decode().splitlines() if "ibm1401" in line]
        self.same("what it says", said, [])


if __name__ == "__main__":
    unittest.main()
