"""`run` with reels: what is refused before it begins, which reels are written, and why a unit stops a program."""
import re
import unittest

from tests.peer import image
from tests.support import EXAMPLES, ProgramTest, misuse, program
from tests.files.test_reel import MARK, between, codes, refuse_large_files

SOURCE = EXAMPLES / "five_and_five.source"
USAGE = "run [OPTIONS] [FILE]"
READ, WRITE, REWIND, UNLOAD, TAPE_MARK = "~M%U1201R", "~M%U1201W", "~U%U1R", "~U%U1U", "~U%U1M"
AREA = 'AB~"'
DONE = "0 cards read, 0 lines printed, 0 cards punched"


class TapesTest(ProgramTest):
    """A folder with a program, a reel of two records, and a name that no file has."""

    def setUp(self):
        names = ("program", "a.tap", "b.tap", "new.tap")
        self.program, self.reel, self.other, self.new = (self.folder / each for each in names)
        self.text = between(codes("ABC")) + between(codes("DE"))
        self.reel.write_bytes(self.text)
        self.put(READ)

    def put(self, done, area=AREA):
        """Makes the program."""
        self.program.write_text(image(100, {100: f"{done}~.~.", 201: area}))

    def run_with(self, *reels, **how):
        """Runs the program with these reels."""
        words = [word for each in reels for word in ("--tape", each)]
        return program("run", self.program, *words, **how)


class Refused(TapesTest):
    """A run that doesn't begin: no file is made or changed."""

    def names(self):
        """The folder's files, and what they have."""
        return {each.name: each.read_bytes() for each in self.folder.iterdir() if each.is_file()}

    def expect_refused(self, name, ran, status, error):
        """A subtest: a run was refused."""
        self.expect(name, ran, status, "", error)
        self.same(f"{name}: the files", self.names(), self.before)

    def test_values(self):
        self.before = self.names()
        unit, nothing = "it begins with a tape unit, 1 to 6, and =", "the reel's file has no name"
        for option, value, why in [
            ("tape", "a.tap", unit), ("tape", "0=a.tap", unit), ("tape", "7=a.tap", unit), ("tape", "01=a.tap", unit),
            ("tape", "=a.tap", unit), ("tape", "", unit), ("tape", "1", unit),
            ("tape", "1=", nothing), ("tape", "1=:ring", nothing), ("tape", "1=:new", nothing),
        ]:
            error = misuse(f"invalid value '{value}' for '--{option} <N=REEL>': {why}", USAGE)
            self.expect_refused(value, program("run", self.program, f"--{option}", value), 2, error)
        twice = misuse("invalid value '1=:scratch' for '--tape <N=REEL>': unit 1 has a reel already", USAGE)
        self.expect_refused("twice", self.run_with(f"1={self.reel}", "1=:scratch"), 2, twice)

    def test_values_of_the_reel_that_is_loaded(self):
        self.before = self.names()
        for value in "1=:scratch", "1=new:new":
            error = misuse(f"invalid value '{value}' for '--load-tape <N=REEL>': a new reel has nothing to load", USAGE)
            self.expect_refused(value, program("run", "--load-tape", value), 2, error)
        for words in [self.program], ["--load", self.program], ["--load", self.program, "--image", "x"]:
            ran = program("run", "--load-tape", f"1={self.reel}", *words)
            self.expect_refused(f"{words}", ran, 2, "error: the argument ...")
        self.expect_refused("no program", program("run"), 2, "error: the following required arguments were not ...")

    def test_files(self):
        self.other.write_bytes(b"\3\0\0\0AB")
        self.before = self.names()
        none = self.folder / "none"
        for value, why in [
            (f"1={none}", f"{none}: no such file"),
            (f"1={none}:ring", f"{none}: no such file"),
            (f"1={self.folder}", f"{self.folder}: is a folder"),
            (f"1={self.other}", f"{self.other}: reel refused: CUT 0"),
            (f"1={self.reel}:new", f"{self.reel}: already exists"),
        ]:
            self.expect_refused(value, self.run_with(value), 1, f"ibm1401: {why}\n")

    def test_a_new_reel_that_cannot_be_made(self):
        """It is refused before the job, whatever else is mounted. A file's name has at most 255 bytes."""
        self.before = self.names()
        mounted, new = f"1={self.reel}", f"{self.new}:new"
        for name in self.folder / "none" / "new.tap", self.reel / "new.tap", self.folder / ("n" * 256):
            for reels in [f"1={name}:new"], [mounted, f"2={name}:new"], [mounted, f"2={new}", f"3={name}:new"]:
                ran = self.run_with(*reels)
                self.expect_refused(f"{name.name} {len(reels)}", ran, 1, f"ibm1401: cannot write {name}\n")
        first, second = self.folder / "none" / "a", self.folder / "none" / "b"
        ran = self.run_with(f"3={first}:new", mounted, f"2={second}:new")
        self.expect_refused("the first of two", ran, 1, f"ibm1401: cannot write {first}\n")
        ran = program("run", self.program, "--tape", f"1={first}:new", "--paper", second)
        self.expect_refused("after the paper", ran, 1, f"ibm1401: cannot write {second}\n")
        deck = self.folder / "deck"
        deck.write_text("A\n")
        self.before = self.names()
        ran = program("run", "--load", deck, "--image", self.other, "--tape", f"1={new}")
        self.expect_refused("no file is left of one", ran, 1, "ibm1401: the deck isn't loaded: ...")

    def test_a_new_file_whose_other_names_are_taken(self):
        """A file that isn't whole yet has one of a hundred names; if each is another file's, none is made."""
        for number in range(100):
            (self.folder / f"new.tap.{number}.part").touch()
        error = f"ibm1401: cannot write {self.new}\n"
        self.expect("a new reel", self.run_with(f"1={self.new}:new"), 1, "", error)
        self.expect("an image", program("assemble", SOURCE, "-o", self.new), 1, "", error)
        self.same("there is none", self.new.exists(), False)
        (self.folder / "new.tap.99.part").unlink()
        self.expect("one is free", program("assemble", SOURCE, "-o", self.new))
        self.same("it is given back", (self.folder / "new.tap.99.part").exists(), False)

    def test_a_reel_with_a_ring_that_cannot_be_replaced(self):
        for number in range(100):
            (self.folder / f"a.tap.{number}.part").touch()
        self.before = self.names()
        ran = self.run_with(f"1={self.reel}:ring", f"2={self.new}:new")
        self.expect_refused("with a ring", ran, 1, f"ibm1401: cannot write {self.reel}\n")
        self.same("without one it is read", self.run_with(f"1={self.reel}").returncode, 0)

    def test_two_names_of_one_file(self):
        self.before = self.names()
        ring, same, new = f"{self.reel}:ring", f"{self.folder}/./a.tap", f"{self.new}:new"
        for words, first, second in [
            (["--tape", f"1={ring}", "--tape", f"2={same}"], same, self.reel),
            (["--tape", f"1={same}", "--tape", f"2={ring}"], same, self.reel),
            (["--tape", f"1={new}", "--tape", f"2={new}"], self.new, self.new),
            (["--tape", f"1={self.program}:ring"], self.program, self.program),
            (["--tape", f"1={ring}", "--cards", same], same, self.reel),
            (["--tape", f"1={self.reel}", "--paper", same], self.reel, same),
            (["--tape", f"1={self.reel}", "--trace", same], self.reel, same),
            (["--tape", f"1={new}", "--punch", self.new], self.new, self.new),
        ]:
            error = f"ibm1401: {first} and {second} are one file\n"
            self.expect_refused(f"{words}", program("run", self.program, *words), 2, error)


class Written(TapesTest):
    """Which reels are written when a job has ended."""

    def ending(self, *places):
        """The end of what is reported, with how far the reels are."""
        tapes = "".join(f", tape {unit} at record {passed} of {all}" for unit, passed, all in places)
        return re.compile(rf"ibm1401: .*{DONE}{tapes}\n".encode())

    def told(self, name, ran, status, *places):
        """A subtest: what is reported ends so."""
        wrong = "" if self.ending(*places).fullmatch(ran.stderr) else f"it is {ran.stderr!r}"
        self.check(name, wrong or ("" if ran.returncode == status else f"status {ran.returncode}"))

    def test_one_without_a_ring_stays(self):
        self.told("it is read", self.run_with(f"1={self.reel}"), 0, (1, 1, 2))
        self.holds("the file", self.reel, self.text)

    def test_one_with_a_ring(self):
        self.put(READ + WRITE)
        self.told("it is written", self.run_with(f"1={self.reel}:ring"), 0, (1, 2, 2))
        self.holds("the file", self.reel, between(codes("ABC")) + between(codes("AB", blank=16)))

    def test_one_two_names_of_which_are_read(self):
        self.told("both are read", self.run_with(f"1={self.reel}", f"2={self.reel}"), 0, (1, 1, 2), (2, 0, 2))

    def test_new_ones(self):
        self.put(WRITE + TAPE_MARK)
        self.told("it is made", self.run_with(f"1={self.new}:new", "3=:scratch"), 0, (1, 2, 2), (3, 0, 0))
        self.holds("the file", self.new, between(codes("AB")) + MARK)
        self.told("without a file", self.run_with("1=:scratch"), 0, (1, 2, 2))

    def test_after_another_stop_and_at_the_limit(self):
        self.put(WRITE + READ)
        self.told("a stop", self.run_with(f"1={self.new}:new"), 1, (1, 1, 1))
        self.holds("its file", self.new, between(codes("AB")))
        self.put(WRITE + WRITE)
        ran = program("run", self.program, "--limit", "1", "--tape", f"1={self.other}:new")
        self.told("the limit", ran, 1, (1, 1, 1))
        self.holds("that file", self.other, between(codes("AB")))

    def test_whole_or_not_at_all(self):
        self.put(READ + WRITE)
        for reel, file in (f"{self.reel}:ring", self.reel), (f"{self.new}:new", self.new):
            self.put(WRITE)
            ran = self.run_with(f"1={reel}", preexec_fn=refuse_large_files)
            self.check(reel, "" if ran.stderr.endswith(f"ibm1401: cannot write {file}\n".encode()) else f"{ran.stderr}")
            self.same(f"{reel}: status", ran.returncode, 1)
        self.holds("the old reel", self.reel, self.text)
        self.same("no file is left", sorted(each.name for each in self.folder.iterdir()), ["a.tap", "program"])


class Stops(TapesTest):
    """Why a tape unit stops a program."""

    def test_reasons(self):
        reel, ring, scratch = f"1={self.reel}", f"1={self.reel}:ring", "1=:scratch"
        for done, area, reels, stop, text, why in [
            (READ, AREA, [f"2={self.reel}"], "TAPE", "MCW %U1,201,R", "tape unit 1 has no reel"),
            (UNLOAD + READ, AREA, [reel], "TAPE", "MCW %U1,201,R", "tape unit 1 was unloaded"),
            (WRITE, AREA, [reel], "TAPE", "MCW %U1,201,W", "the reel on tape unit 1 has no ring"),
            (TAPE_MARK, AREA, [reel], "TAPE", "CU %U1,M", "the reel on tape unit 1 has no ring"),
            (READ * 3, AREA, [reel], "TAPE", "MCW %U1,201,R", "no record follows record 2 on tape unit 1"),
            (READ, AREA, [scratch], "TAPE", "MCW %U1,201,R", "the reel on tape unit 1 has no record"),
            (WRITE, "AB", [ring], "ADDRESS", "MCW %U1,201,W", "no group mark with a word mark from 201 up"),
            (WRITE, '~"', [ring], "ADDRESS", "MCW %U1,201,W", "the record to write from 201 is empty"),
            ("~M%U1I99R", AREA, [reel], "ADDRESS", "MCW %U1,3999,R", "the record to read to 3999 doesn't fit in core"),
            ("~L%B1201X", AREA, [reel], "DCHAR", "LCA %B1,201,X", "the d-character X means nothing to the operation L"),
            # What names no unit is an address. A machine without tape units shows what the instruction asks for.
            ("~M%U9201R", AREA, [reel], "NOTFITTED", "MCW 1449+X1,201,R", "no tape unit has this name"),
            (READ, AREA, [], "NOTFITTED", "MCW %U1,201,R", "the operation M isn't fitted with 8 characters"),
        ]:
            self.put(done, area)
            ran = self.run_with(*reels)
            found = re.fullmatch(rb"ibm1401: (\w+) at \d{4} \((.*)\): (.*) after \d+ steps?; .*\n", ran.stderr)
            self.same(why, found and [each.decode() for each in found.groups()], [stop, text, why])

    def test_a_trace_has_the_units_name(self):
        self.put(f"{READ}{REWIND}~L%B2201R")
        trace = self.folder / "trace"
        ran = program("run", self.program, "--tape", f"1={self.reel}", "--tape", "2=:scratch", "--trace", trace)
        self.expect("the run", ran, 1, "", "ibm1401: TAPE at ...")
        shown = [line.split("\t")[2] for line in trace.read_text().splitlines()]
        wanted = ["MCW  %U1,201,R", "CU   %U1,R", "LCA  %B2,201,R"]
        self.same("the instructions", shown, [f"{each:20}" for each in wanted])

    def test_nothing_is_loaded(self):
        empty = self.folder / "empty.tap"
        empty.write_bytes(b"")
        ran = program("run", "--load-tape", f"2={empty}")
        why = "the reel on tape unit 2 has no record after 0 steps"
        self.expect("an empty reel", ran, 1, "", f"ibm1401: TAPE at 0000: {why}; {DONE}, tape 2 at record 0 of 0\n")


if __name__ == "__main__":
    unittest.main()
