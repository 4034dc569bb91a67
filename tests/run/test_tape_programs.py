"""The programs of examples/tapes: reels and paper, worked out by tape_reels.py without a program for the 1401; and the
same on i1401."""
import os
import re
import subprocess
import unittest

from tests.peer import image, peer, with_peer
from tests.support import EXAMPLES, PROGRAM, TOP, ProgramTest, program, run
from tests.tape_reels import MARK, MARK_RECORD, TASKS, paper_of, records_of, tape

PROGRAMS = EXAMPLES / "tapes"


class TapeTest(ProgramTest):
    """A folder with the reels of a program."""

    def source(self, name):
        """The source of a program."""
        return PROGRAMS / f"{name}.source"

    def reel(self, unit):
        """The file of a unit's reel."""
        return self.folder / f"{unit}.tap"

    def put_reels(self, task, end):
        """Writes the reels that a program reads, each with this end, and removes those that it writes."""
        for unit, records in task.reads.items():
            self.reel(unit).write_bytes(tape(records, end))
        for unit in [*task.writes, *task.work]:
            self.reel(unit).unlink(missing_ok=True)

    def holds_reels(self, name, task):
        """Subtests: the reels that a program writes are the wanted ones, to the byte."""
        for unit, records in task.writes.items():
            found = self.reel(unit).read_bytes() if self.reel(unit).exists() else b""
            self.same(f"{name}: how many records unit {unit} has", len(records_of(found)) if found else 0, len(records))
            self.check(f"{name}: the reel of unit {unit}", "" if found == tape(records) else "it is another")


class Programs(TapeTest):
    """The programs on this machine, from source to reels and paper."""

    def job(self, task, *call):
        """Runs a program with its reels."""
        words = [f"{unit}={self.reel(unit)}" for unit in task.reads]
        words += [f"{unit}={self.reel(unit)}:new" for unit in task.writes]
        words += [f"{unit}=:scratch" for unit in task.work]
        return program("run", *call, *(part for word in words for part in ("--tape", word)))

    def made(self, name, task, ran):
        """Subtests: a program halted, and made the wanted paper and reels."""
        self.expect(f"{name}: its paper", ran, 0, paper_of(task.pages), "ibm1401: HALT at ...")
        lines = sum(len(page) for page in task.pages)
        end = rf"steps; \d+ cards? read, {lines} lines printed, 0 cards punched, tape 1 at record 0 of "
        self.check(f"{name}: the counts", "" if re.search(end, ran.stderr.decode()) else ran.stderr.decode())
        self.holds_reels(name, task)

    def hold(self, name, *, end):
        """Subtests: a program on reels with this end."""
        task = TASKS[name]()
        self.put_reels(task, end)
        before = [self.reel(unit).read_bytes() for unit in task.reads]
        self.made(name, task, self.job(task, self.source(name), "--language", "ibm"))
        self.same("what it reads stays", [self.reel(unit).read_bytes() for unit in task.reads] == before, True)
        return task

    def test_two_reels_are_merged(self):
        self.hold("merge_reels", end=MARK)

    def test_a_master_is_brought_up_to_date(self):
        self.hold("update_master", end=MARK)

    def test_a_reel_is_listed(self):
        self.hold("list_reel", end=MARK)

    def test_a_reel_is_sorted(self):
        self.hold("sort_reel", end=MARK)

    def test_the_record_of_a_tape_mark_ends_a_reel_too(self):
        for name in TASKS:
            self.hold(name, end=MARK_RECORD)

    def test_a_deck_that_loads_itself(self):
        task, deck = TASKS["merge_reels"](), self.folder / "deck"
        self.expect("the deck", program("assemble", "--language", "ibm", self.source("merge_reels"), "--deck", deck))
        self.put_reels(task, MARK)
        self.made("merge_reels", task, self.job(task, deck, "--load"))

    def test_a_reel_without_a_tape_mark_stops_the_program(self):
        """What was printed and written up to there is on paper and on tape."""
        task = TASKS["merge_reels"]()
        self.put_reels(task, b"")
        ran = self.job(task, self.source("merge_reels"), "--language", "ibm")
        self.expect("the run", ran, 1, "", "ibm1401: TAPE at 0...")
        wanted = task.writes[3][:len(records_of(self.reel(3).read_bytes() + bytes(4)))]
        self.check("it stops near the end", "" if len(wanted) > len(task.reads[1]) else f"after {len(wanted)}")
        self.check("what is written", "" if self.reel(3).read_bytes() == tape(wanted, b"") else "it is another")

    def test_nothing_in_them_is_doubtful(self):
        for name in TASKS:
            ran = program("assemble", "--all", "--language", "ibm", "--fit", "tapes", self.source(name))
            self.expect(name, ran, 0, "IMAGE2 04000\n...")

    def test_the_commands_of_the_page(self):
        """What TAPES.md shows, in its order."""
        page = (TOP / "docs/TAPES.md").read_text()
        shown = re.findall(r"```sh\n(.*?)```\n(?:\n```text\n(.*?)```)?", page, re.DOTALL)
        self.check("it shows a program", "" if any(" run " in call for call, _ in shown) else "it shows none")
        for call, output in shown:
            here = call.replace("/tmp/", f"{self.folder}/")
            ran = run(["bash", "-c", here], cwd=self.top)
            self.expect(call.strip(), ran, 0, output.replace("/tmp/", f"{self.folder}/"), ran.stderr)


class Long(TapeTest):
    """Long reels."""

    def seconds(self, count):
        """The processor time of a program that reads so many records, in seconds."""
        reading = self.folder / "reading"
        reading.write_text(image(600, {600: "~M%U1800R~B618K~N~B600~.~.", 880: '~"'}))
        self.reel(1).write_bytes(tape(["A" * 80]).removesuffix(MARK) * count + MARK)
        call = [PROGRAM, "run", reading, "--tape", f"1={self.reel(1)}"]
        process = subprocess.Popen(call, stdin=subprocess.DEVNULL, stderr=subprocess.DEVNULL)
        _, status, used = os.wait4(process.pid, 0)
        process.returncode = os.waitstatus_to_exitcode(status)
        self.same(f"{count} records: the status", process.returncode, 0)
        return used.ru_utime

    def test_a_record_of_a_long_reel_takes_as_long_as_one_of_a_short_reel(self):
        short, long = (min(self.seconds(count) for _ in range(3)) for count in (15_000, 150_000))
        self.check("ten times the records", "" if long < 30 * short else f"{short:.3f} s, and {long:.3f} s")


@with_peer
class Peer(TapeTest):
    """The programs on i1401. It reads a tape mark of length 0 as a record of any length, and loses the end of file if
    that is as long as the area; so its reels end with the record of a tape mark. `sort_reel` reads the tape marks that
    it writes, and has a place more in each area."""

    def hold(self, name):
        """Subtests: a program there writes the same reels and prints the same lines on the same pages."""
        task, deck, paper = TASKS[name](), self.folder / "deck", self.folder / "paper"
        call = ["assemble", "--language", "ibm", self.source(name), "--deck", deck, "--out-graphics", "simh"]
        self.expect("the deck", program(*call))
        self.put_reels(task, MARK_RECORD)
        paper.unlink(missing_ok=True)
        reels = [f"attach -r mt{unit} {self.reel(unit)}" for unit in task.reads]
        reels += [f"attach mt{unit} {self.reel(unit)}" for unit in [*task.writes, *task.work]]
        said = peer(f"attach cdr {deck}", f"attach lpt {paper}", *reels, "boot cdr")
        self.check(f"{name}: it halts", "" if "HALT" in said else said)
        self.holds_reels(name, task)
        pages = paper.read_text().split("\f")
        pages = [[line.rstrip() for line in page.splitlines() if line.strip()] for page in pages]
        wanted = [[page[line].rstrip() for line in sorted(page)] for page in task.pages]
        self.same(f"{name}: the paper", [page for page in pages if page], wanted)

    def test_each_program(self):
        for name in TASKS:
            self.hold(name)


if __name__ == "__main__":
    unittest.main()
