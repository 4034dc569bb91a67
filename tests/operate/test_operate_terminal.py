"""A person's console at a terminal, by a pseudo-terminal: prompts, Enter and Ctrl-C in a run, settings, colours."""
import contextlib
import fcntl
import os
import pty
import re
import select
import shlex
import shutil
import signal
import struct
import subprocess
import termios
import time
import unittest
from pathlib import Path

from tests.preloaded import library, needs_compiler
from tests.support import EXAMPLES, LAUNCHER, PROGRAM, REPLY_SECONDS, SECONDS, ProgramTest, program, wait_until

PROMPT = b"1401> "
SHELL = b"shell$ "
# The size of a terminal, as the system has it: 24 lines of 80 columns.
SIZE = struct.pack("HHHH", 24, 80, 0, 0)
# A loop without an end.
LOOP = b"deposit 600 ~A705704~B600~.\ndeposit 703 ~00~1\n"
# Three instructions and a halt. Two commands load them: the cells, and where they begin.
FOUR = """\
               ORG  500
     FIRST     NOP
               NOP
               NOP
               H
               NOP
               END  FIRST
"""
INTERRUPTED = re.compile(rb"interrupted after (\d+) steps")
# A second and a part of it, in the unit in which the system counts a process's time.
A_SECOND = os.sysconf("SC_CLK_TCK")
A_WHILE = A_SECOND // 20
# How often a run is stopped.
TURNS = 10
COLOURS = re.compile(rb"\x1b\[\d*m")


def programs_of(process):
    """What the system says of each process of the program that this one has started, or that it is: the fields from the
    state on."""
    fields, below, known = {}, {process}, set()
    for folder in Path("/proc").iterdir():
        if folder.name.isdigit():
            with contextlib.suppress(OSError):
                fields[int(folder.name)] = (folder / "stat").read_text().rpartition(")")[2].split()
    while below != known:
        known = set(below)
        below |= {number for number in fields if int(fields[number][1]) in known}
    found = []
    for number in below & set(fields):
        with contextlib.suppress(OSError):
            found += [fields[number]] if Path(f"/proc/{number}/exe").samefile(PROGRAM) else []
    return found


def used_by(process):
    """How much processor time the program has used that this process has started, or that it is."""
    return sum(int(fields[11]) + int(fields[12]) for fields in programs_of(process))


def is_at_work(process):
    """Waits until that program is at work, and returns whether it comes to be."""
    before = used_by(process)
    return wait_until(lambda: used_by(process) > before + A_WHILE)


class Seat:
    """A process at a terminal of its own, where these keys were pressed before it began."""

    def __init__(self, words, folder, typed=b"", **environment):
        self.master, slave = pty.openpty()
        fcntl.ioctl(slave, termios.TIOCSWINSZ, SIZE)
        self.settings = termios.tcgetattr(slave)
        self.slave = slave
        self.type(typed)
        names = {**os.environ, **environment}
        self.process = subprocess.Popen(words, cwd=folder, stdin=slave, stdout=slave, stderr=slave, env=names,
                                        start_new_session=True, preexec_fn=self.take)
        self.shown = b""

    def take(self):
        """Makes the terminal that of the new session, whose keys end it, also where our own caller ignores them."""
        for each in signal.SIGINT, signal.SIGQUIT, signal.SIGTSTP:
            signal.signal(each, signal.SIG_DFL)
        fcntl.ioctl(0, termios.TIOCSCTTY, 0)

    def type(self, keys):
        """Presses keys."""
        os.write(self.master, keys)

    def read(self, seconds):
        """Reads what is shown, for so long at most; false if nothing came."""
        if not select.select([self.master], [], [], seconds)[0]:
            return False
        try:
            more = os.read(self.master, 65_536)
        except OSError:
            more = b""
        self.shown += more
        return bool(more)

    def until(self, wanted, seconds=REPLY_SECONDS):
        """Waits for a text, and returns what came up to its end; what comes after it is left. None if it doesn't
        come."""
        late = time.monotonic() + seconds
        while wanted not in self.shown and time.monotonic() < late:
            self.read(0.05)
        if wanted not in self.shown:
            return None
        before, _, self.shown = self.shown.partition(wanted)
        return before + wanted

    def say(self, line):
        """Types a line, and returns what is shown up to the next prompt."""
        self.type(line + b"\n")
        return self.until(PROMPT)

    def go(self, line):
        """Types a line that begins a run, and waits until it goes on; false if it doesn't."""
        self.type(line + b"\n")
        return is_at_work(self.process.pid)

    def comes_to_front(self):
        """Waits until a job of the shell here has the terminal, and goes on; false if it doesn't."""
        return wait_until(lambda: os.tcgetpgrp(self.master) != self.process.pid
                          and "T" not in {fields[0] for fields in programs_of(self.process.pid)})

    def end(self):
        """Waits for the end, and returns the status."""
        late = time.monotonic() + SECONDS
        while self.process.poll() is None and time.monotonic() < late:
            self.read(0.05)
        return self.process.poll()

    def close(self):
        """Ends it if it is still there."""
        if self.process.poll() is None:
            os.killpg(self.process.pid, signal.SIGKILL)
            self.process.wait()
        for each in {self.master, self.slave} - {None}:
            os.close(each)


class Pane:
    """A pane of tmux, whose server is its own."""

    def __init__(self, command, folder, name):
        self.tmux = ["tmux", "-L", f"ibm1401-{os.getpid()}-{name}", "-f", "/dev/null"]
        subprocess.run([*self.tmux, "new-session", "-d", command], cwd=folder, check=True)
        asked = [*self.tmux, "display-message", "-p", "#{pane_pid}"]
        self.process = int(subprocess.run(asked, capture_output=True, check=True).stdout)

    def press(self, *keys):
        """Presses keys."""
        subprocess.run([*self.tmux, "send-keys", *keys], check=True)

    def shown(self):
        """What it shows."""
        call = [*self.tmux, "capture-pane", "-p", "-S", "-"]
        return subprocess.run(call, capture_output=True, text=True, check=False).stdout

    def has(self, text):
        """Waits for a text; false if it doesn't come."""
        late = time.monotonic() + REPLY_SECONDS
        while text not in self.shown() and time.monotonic() < late:
            time.sleep(0.05)
        return text in self.shown()

    def close(self):
        """Ends it."""
        subprocess.run([*self.tmux, "kill-server"], capture_output=True, check=False)


class Terminal(ProgramTest):
    """A person at a terminal."""

    @property
    def desk(self):
        """A folder with the examples."""
        made = self.folder / "desk"
        if not made.exists():
            shutil.copytree(EXAMPLES, made)
        return made

    def seat(self, *words, by=PROGRAM, **environment):
        """A seat at `operate` with these words, once its first prompt is there."""
        made = Seat([by, "operate", *words], self.desk, **{"NO_COLOR": "1", **environment})
        self.addCleanup(made.close)
        self.assertIsNotNone(made.until(PROMPT), made.shown)
        return made

    def launchers(self):
        """The launcher, where it has nothing to build."""
        return [] if "IBM1401" in os.environ or not PROGRAM.exists() else [LAUNCHER]

    def launched(self, *words):
        """The same by the launcher, where it has nothing to build."""
        if not self.launchers():
            self.skipTest("the program isn't built, or is another")
        return self.seat(*words, by=LAUNCHER)

    def steps_of(self, shown):
        """After how many steps a run was interrupted."""
        found = INTERRUPTED.search(shown or b"")
        self.assertTrue(found, shown)
        return int(found[1])

    def test_one_prompt_after_each_answer(self):
        seat = self.seat()
        self.same("before anything is read, one prompt alone", seat.read(0.3), False)
        for _ in range(3):
            self.same("an answer", seat.say(b"evaluate 400"), b"evaluate 400\r\n400, spelled 400\r\n" + PROMPT)
            self.same("no other prompt", seat.read(0.2), False)
        seat.type(b"quit\n")
        self.same("its status", seat.end(), 0)

    def test_none_without_a_terminal(self):
        self.check("no prompt", "1401>" if PROMPT in program("operate", lines=b"evaluate 400\n").stdout else "")
        echoed = program("operate", "--echo", lines=b"evaluate 400\n").stdout
        self.check("with --echo", "" if echoed.endswith(PROMPT + b"evaluate 400\n400, spelled 400\n") else echoed)

    def test_enter_stops_a_run(self):
        seat = self.seat("--journal", "kept")
        for line in LOOP.splitlines():
            seat.say(line)
        self.assertTrue(seat.go(b"go 600"))
        steps = self.steps_of(seat.say(b""))
        runs = re.findall(r"\tRUN (\d+)\t", (self.desk / "kept").read_text())
        self.same("the journal has those runs", sum(map(int, runs)), steps)
        used = [self.used_after_enter(seat) for _ in range(TURNS)]
        # A host with much to do lets it work on in some turns before the key comes.
        self.check("within a second of its work", "" if min(used) < A_SECOND else f"{used}")
        seat.type(b"\x04")
        self.same("its status", seat.end(), 0)
        self.same("its journal", program("journal", "--check", self.desk / "kept").returncode, 0)

    def used_after_enter(self, seat):
        """A subtest: a run that was stopped goes on. How long the program works from the next Enter on."""
        goes_on = seat.go(b"continue")
        before = used_by(seat.process.pid)
        steps = self.steps_of(seat.say(b""))
        self.check("it goes on from there", "" if goes_on and steps > 0 else "it doesn't")
        return used_by(seat.process.pid) - before

    @needs_compiler
    def test_each_command_that_is_carried_out_again_may_be_the_last(self):
        """The program looks for Enter before each of them, and sees it after so many looks in vain. Then the line ends,
        and nothing has changed."""
        (self.desk / "four").write_text(FOUR)
        for line, commands, gone, last in (
            ("undo", 3, "1 command taken back; next is 0502 (line 4, NOP)", "3  RUN 2 "),
            ("back 1", 2, "next is 0501 (line 3, NOP)", "3  RUN 1 "),
            ("restart", 2, "next is 0500 (line 2, FIRST NOP)", "2  START 0500 "),
        ):
            (self.desk / "lines").write_text(f"until 502\nstart 500\n{line}\n")
            for looks in range(4):
                seat = Seat([PROGRAM, "operate", "four", "--do", "lines"], self.desk, typed=b"\n", NO_COLOR="1",
                            LD_PRELOAD=str(library("late_looks")), LATE_LOOKS=str(looks))
                self.addCleanup(seat.close)
                stopped = "? lines: line 3: interrupted: the machine is where it was", "4  START 0500 "
                answer, entry = stopped if looks < commands else (gone, last)
                shown = seat.until(PROMPT) or seat.shown
                self.check(f"{line}, {looks} looks", "" if f"\r\n{answer}\r\n".encode() in shown else f"{shown}")
                seat.type(b"journal 1\nevaluate 400\n")
                shown = seat.until(b"400, spelled 400") or seat.shown
                self.check(f"{line}, {looks} looks: its journal", "" if entry.encode() in shown else f"{shown}")

    def test_ctrl_c_through_the_launcher(self):
        seat = self.launched()
        for line in LOOP.splitlines():
            seat.say(line)
        self.assertTrue(seat.go(b"go 600"))
        seat.type(b"\x03")
        self.steps_of(seat.until(PROMPT))
        seat.type(b"exa\x03")
        self.check("a half line counts for nothing", "" if b"?" not in (seat.until(PROMPT) or b"?") else "it does")
        for _ in range(10):
            seat.type(b"\x03")
            self.assertIsNotNone(seat.until(PROMPT))
        self.check("it lives", "" if b"400, spelled 400" in (seat.say(b"evaluate 400") or b"") else "it doesn't")
        seat.type(b"quit\n")
        self.same("its status", seat.end(), 0)

    def test_the_settings_are_put_back(self):
        for name, keys, status in ("quit", b"quit\n", 0), ("Ctrl-D", b"\x04", 0):
            seat = self.launched()
            seat.type(keys)
            self.same(f"{name}: its status", seat.end(), status)
            self.same(name, termios.tcgetattr(seat.slave), seat.settings)
        seat = Seat([LAUNCHER, "operate", "nothing"], self.desk)
        self.addCleanup(seat.close)
        self.same("no such file: its status", seat.end(), 1)
        self.same("no such file", termios.tcgetattr(seat.slave), seat.settings)

    def test_the_settings_are_put_back_if_the_program_is_killed(self):
        seat = self.launched()
        children = subprocess.run(["pgrep", "-P", str(seat.process.pid)], capture_output=True, text=True, check=False)
        for child in children.stdout.split():
            os.kill(int(child), signal.SIGKILL)
        self.same("its status", seat.end(), 128 + signal.SIGKILL)
        self.same("the settings", termios.tcgetattr(seat.slave), seat.settings)

    def test_lines_that_are_typed_ahead(self):
        seat = self.seat()
        for line in LOOP.splitlines():
            seat.say(line)
        seat.type(b"start 600\ncontinue 3000000\nevaluate 400\nevaluate 401\n")
        shown = b"".join(seat.until(each) or b"(nothing)" for each in (b"400, spelled 400", b"401, spelled 401"))
        self.check("the run isn't stopped by them", "interrupted" if b"interrupted" in shown else "")
        seat.until(PROMPT)
        seat.type(b"continue\nevaluate 402\n\nevaluate 403\n")
        shown = b"".join(seat.until(each) or b"(nothing)" for each in (b"402, spelled 402", b"403, spelled 403"))
        self.check("an empty line among them stops it", "" if INTERRUPTED.search(shown) else shown)
        seat.until(PROMPT)
        seat.type(b"continue\n" + b"evaluate 402\n" * 30 + b"\n")
        self.same("at the first look, whatever is before it", self.steps_of(seat.until(b" steps")), 1_000_000)

    def test_without_the_launcher_ctrl_c_ends_it(self):
        seat = self.seat("--journal", "kept")
        seat.say(b"deposit 700 ~A")
        seat.type(b"\x03")
        self.same("its status", seat.end(), -signal.SIGINT)
        self.expect("its journal", program("journal", "--check", self.desk / "kept"), 0, "1 entries\n")

    def test_after_ctrl_z_and_fg(self):
        """The prompt answers, and Enter stops a run."""
        for by in PROGRAM, *self.launchers():
            shell = Seat(["bash", "--norc", "--noprofile", "-i"], self.desk, PS1="shell$ ", NO_COLOR="1")
            self.addCleanup(shell.close)
            shell.until(SHELL)
            shell.type(f"{shlex.quote(str(by))} operate\n".encode())
            self.assertIsNotNone(shell.until(PROMPT), shell.shown)
            for line in LOOP.splitlines():
                shell.say(line)
            shell.type(b"\x1a")
            self.assertIsNotNone(shell.until(SHELL), shell.shown)
            shell.type(b"fg\n")
            self.assertTrue(shell.comes_to_front(), shell.shown)
            shown = shell.say(b"evaluate 400") or shell.shown
            self.check(f"{by.name}: it answers", "" if b"400, spelled 400" in shown else shown)
            self.assertTrue(shell.go(b"go 600"))
            self.check(f"{by.name}: Enter stops a run", "" if self.steps_of(shell.say(b"")) > 0 else "it doesn't")
            shell.type(b"quit\n")
            self.assertIsNotNone(shell.until(SHELL), shell.shown)
            shell.type(b"exit\n")
            shell.end()

    def test_ctrl_backslash_ends_it(self):
        """The journal has each command that was answered, and the launcher puts the settings back."""
        for by in PROGRAM, *self.launchers():
            kept = f"kept.{by.name}.{by.parent.name}"
            seat = self.seat("--journal", kept, by=by)
            seat.say(b"deposit 700 ~A")
            seat.type(b"\x1c")
            self.assertIn(seat.end(), (-signal.SIGQUIT, 128 + signal.SIGQUIT), by)
            self.same(f"{by.name}: the settings", termios.tcgetattr(seat.slave), seat.settings)
            self.expect(f"{by.name}: its journal", program("journal", "--check", self.desk / kept), 0, "1 entries\n")

    def test_under_rlwrap(self):
        """An arrow brings the last line back, and Enter stops a run."""
        wrap = shutil.which("rlwrap")
        if wrap is None:
            self.skipTest("not on the PATH: rlwrap")
        seat = Seat([wrap, PROGRAM, "operate"], self.desk, NO_COLOR="1", TERM="xterm")
        self.addCleanup(seat.close)
        self.assertIsNotNone(seat.until(PROMPT), seat.shown)
        for line in LOOP.splitlines():
            seat.say(line)
        seat.say(b"evaluate 400")
        seat.read(0.3)
        seat.type(b"\x1b[A")
        seat.read(0.3)
        seat.type(b"\n")
        self.assertIsNotNone(seat.until(b"400, spelled 400"), seat.shown)
        self.assertTrue(seat.go(b"go 600"))
        seat.type(b"\n")
        self.steps_of(seat.until(b"steps"))
        seat.type(b"quit\n")
        self.same("its status", seat.end(), 0)

    def test_in_tmux(self):
        """Enter stops a run, and so does Ctrl-C by the launcher."""
        if shutil.which("tmux") is None:
            self.skipTest("not on the PATH: tmux")
        for by, key in (PROGRAM, "Enter"), *((each, "C-c") for each in self.launchers()):
            pane = Pane(f"{shlex.quote(str(by))} operate; sleep 1", self.desk, key)
            self.addCleanup(pane.close)
            self.assertTrue(pane.has(PROMPT.decode().strip()), by)
            for line in [*LOOP.decode().splitlines(), "go 600"]:
                pane.press("-l", line)
                pane.press("Enter")
            self.assertTrue(is_at_work(pane.process), pane.shown())
            pane.press(key)
            self.check(f"{by.name}, {key}", "" if pane.has("interrupted after ") else pane.shown())

    def test_colours(self):
        shown = {}
        for name, environment in ("with", {"NO_COLOR": ""}), ("without", {}):
            seat = self.seat("sales.source", "--cards", "sales.cards", "--switches", "A", **environment)
            shown[name] = b"".join(seat.say(line) for line in (b"stpe", b"continue"))
        self.check("there are some", "" if COLOURS.search(shown["with"]) else "none")
        self.same("there are none", COLOURS.search(shown["without"]), None)
        self.same("the text is the same", COLOURS.sub(b"", shown["with"]), shown["without"])

    def test_a_terminal_that_is_closed(self):
        seat = self.seat()
        os.close(seat.slave)
        os.close(seat.master)
        seat.slave = seat.master = None
        self.check("it ends", "" if wait_until(lambda: seat.process.poll() is not None) else "it doesn't")


if __name__ == "__main__":
    unittest.main()
