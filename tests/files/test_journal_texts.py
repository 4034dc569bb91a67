"""The text of a journal: read and written again, shown in columns, and each fault of other texts."""
import re
import unittest

from tests.session_texts import registers
from tests.support import MOST_ENTRIES, TOP, ProgramTest, program

HEAD = "JOURNAL1 1400\n"
REGISTERS = ("I=00005 A=00000 B=00000 UNEQUAL=0 LOW=0 HIGH=0 OVERFLOW=0 SWITCHES=------G HOPPER=001 STACKER=000 "
             "PAPER=000 FORM=0001 LINE=01\n")
# What three seats gave: an address past core, cells deposited and shown, a switch, a card, and the registers.
SEATED = (
    f"{HEAD}1\t0\tSTART 0005\tOK\n2\t0\tSTART 1400\tREFUSED 1 ADDRESS\n3\t2\tDEPOSIT 0700 ~999\tOK\n"
    f"4\t2\tEXAMINE 0700 3\t~999\n5\t0\tSWITCH G ON\tOK\n6\t255\tFEED  0\tOK\n7\t0\tREGS\t{REGISTERS}"
)
# A machine that is fitted, and halts at a length that the basic one hasn't. Then it is fitted with nothing.
FITTED_START = f"{HEAD}1\t1\tFIT MULTIPLY LENGTHS\tOK\n2\t0\tDEPOSIT 0500 ~. ~.\tOK\n3\t0\tSTART 0500\tOK\n"
FITTED = (
    f"{FITTED_START}4\t0\tRUN 2\tSTOP 02 HALT STEPS 1 I 00502\n5\t1\tFIT NONE\tOK\n6\t0\tSTART 0500\tOK\n"
    "7\t0\tRUN 2\tSTOP 08 LENGTH STEPS 0 I 00500\n"
)
WITHOUT_THE_FIRST = (
    f"{HEAD}1\t0\tDEPOSIT 0500 ~. ~.\tOK\n2\t0\tSTART 0500\tOK\n3\t0\tRUN 2\tSTOP 08 LENGTH STEPS 0 I 00500\n"
)
# What fits machines: the names have one order.
FITS = (
    f"{HEAD}1\t0\tFIT NONE\tOK\n2\t0\tFIT MOVE-RECORD\tOK\n3\t0\tFIT MULTIPLY LENGTHS\tOK\n"
    "4\t0\tFIT MULTIPLY MOVE-RECORD MODIFY-ADDRESS BIT-TEST LENGTHS READ-PUNCH-RELEASE TAPES\tOK\n"
)
LOADED = "1\t0\tLOAD\tREFUSED 3 READER"

# Lines that are typed with more blanks and zeros than they need, and the journal that comes of them.
TYPED = (
    "  DEPOSIT  700 ~0K\nEXAMINE 15999 40\n EXAMINE 701\nREGS \nSTART 5\nSWITCH  G  ON\nSWITCH A OFF\nFEED  0 \nLOAD\n"
    "RUN 9999999\nLINE\nCARD\n"
)
OF_TYPED = (
    "JOURNAL1 16000\n1\t0\tDEPOSIT 0700 ~0K\tOK\n2\t0\tEXAMINE 15999 40\tREFUSED 1 ADDRESS\n3\t0\tEXAMINE 0701 1\tK\n"
    f"4\t0\tREGS\t{registers(0, 0, 0)}\n5\t0\tSTART 0005\tOK\n"
    "6\t0\tSWITCH G ON\tOK\n7\t0\tSWITCH A OFF\tOK\n8\t0\tFEED  0\tOK\n9\t0\tLOAD\tOK\n"
    "10\t0\tRUN 9999999\tREFUSED 5 LIMIT\n11\t0\tLINE\tREFUSED 4 EMPTY\n12\t0\tCARD\tREFUSED 4 EMPTY\n"
)

# Texts that are no journal's, each with its first wrong line and what is wrong with it.
TEXTS = [
    ("", "1: 8 UNFINISHED"),
    ("JOURNAL1 1400", "1: 8 UNFINISHED"),
    ("\n", "1: 2 HEADER"),
    ("JOURNAL1 1401\n", "1: 2 HEADER"),
    ("JOURNAL1 01400\n", "1: 2 HEADER"),
    ("JOURNAL2 1400\n", "1: 2 HEADER"),
    ("JOURNAL1 1400 \n", "1: 2 HEADER"),
    ("JOURNAL1 1400\r\n", "1: 2 HEADER"),
]
# Lines that are no entry after the first line of a journal, in the same way.
LINES = [
    ("\n", "2: 3 NUMBER"),
    ("2\t0\tSTART 0005\tOK\n", "2: 3 NUMBER"),
    ("01\t0\tSTART 0005\tOK\n", "2: 3 NUMBER"),
    ("1 0\tSTART 0005\tOK\n", "2: 3 NUMBER"),
    ("1\t256\tSTART 0005\tOK\n", "2: 4 SEAT"),
    ("1\t00\tSTART 0005\tOK\n", "2: 4 SEAT"),
    ("1\t\tSTART 0005\tOK\n", "2: 4 SEAT"),
    ("1\t0000\tSTART 0005\tOK\n", "2: 4 SEAT"),
    ("1\t0\tQUIT\tBYE\n", "2: 5 COMMAND"),
    ("1\t0\tEXAMINE 0005\t \n", "2: 5 COMMAND"),
    ("1\t0\tFIT LENGTHS\n", "2: 5 COMMAND"),
    ("1\t0\tFIT LENGTHS\tok\n", "2: 6 ANSWER"),
    ("1\t0\tFIT LENGTHS\tREFUSED 1 ADDRESS\n", "2: 6 ANSWER"),
    ("1\t0\tFIT LENGTHS\tOK\n2\t0\tFIT DISKS\tOK\n", "3: 5 COMMAND"),
    ("1\t0\tREGS\tOK\n", "2: 6 ANSWER"),
    ("1\t0\tSTART 0005\tok\n", "2: 6 ANSWER"),
    ("1\t0\tSTART 0005\tOK \n", "2: 6 ANSWER"),
    ("1\t0\tSTART 0005\t\n", "2: 6 ANSWER"),
    ("1\t0\tSTART 1400\tOK\n", "2: 6 ANSWER"),
    ("1\t0\tSTART 0005\tOK", "2: 8 UNFINISHED"),
    ("1\t0\tSTART 0005\tOK\n2\t0\tLINE\tREFUSED 4 EMPTY\n3\t0\tCARD\tOK\n", "4: 6 ANSWER"),
    ("1\t0\tSTART 0005\tOK\nx", "3: 8 UNFINISHED"),
]
# What is no command, or a command in another spelling.
COMMANDS = [
    "", "GLANCE 0005", "START 5", "START 0005 ", "START 16000", "RUN 10000000", "FIT", "FIT ", "FITNONE", " FIT NONE",
    "FIT NONE ", "FIT  NONE", "fit none", "FIT none", "FIT NONE LENGTHS", "FIT LENGTHS NONE", "FIT LENGTHS MULTIPLY",
    "FIT LENGTHS LENGTHS", "FIT MULTIPLY  LENGTHS", "FIT  LENGTHS", "FIT LENGTHS ", "FIT MULTIPLY,LENGTHS", "FIT ALL",
]
# What is wrong with a line, as the crate names it and as it is written.
FAULTS = [
    ("1 MEMORY", "Memory"), ("2 HEADER", "Header"), ("3 NUMBER", "Number"), ("4 SEAT", "Seat"),
    ("5 COMMAND", "Command"), ("6 ANSWER", "Answer"), ("7 FULL", "Full"), ("8 UNFINISHED", "Unfinished"),
]


class JournalTextsTest(ProgramTest):
    """A test with the text of a journal in a file."""

    def setUp(self):
        self.path, self.new = self.folder / "a.journal", self.folder / "new.journal"

    def is_written_again(self, name, text, count):
        """Subtests: a text is that of a journal with so many entries, whose commands make the same text again."""
        self.path.write_text(text)
        self.new.unlink(missing_ok=True)
        self.expect(f"{name}: checked", program("journal", "--check", self.path), 0, f"{count} entries\n")
        self.expect(f"{name}: carried out", program("resume", "--journal", self.new, self.path))
        self.holds(f"{name}: written again", self.new, text.encode())


class Read(JournalTextsTest):
    """Journals that are read, and written again."""

    def test_what_was_read_is_written_again(self):
        self.is_written_again("seats", SEATED, 7)
        self.is_written_again("what a machine is fitted with", FITTED, 7)
        self.is_written_again("the beginning of that", FITTED_START, 3)
        self.is_written_again("each spelling of FIT", FITS, 4)

    def test_a_journal_without_an_entry_is_its_first_line(self):
        for size in 1400, 2000, 4000, 8000, 12000, 16000:
            self.is_written_again(str(size), f"JOURNAL1 {size}\n", 0)
            ran = program("resume", self.path, lines=b"EXAMINE %d 2\nEXAMINE %d\n" % (size - 1, size - 1))
            self.expect(f"{size}: its last places", ran, 0, "REFUSED 1 ADDRESS\n \n")

    def test_the_machine_is_as_the_journal_left_it(self):
        for name, text, lines, replies in [
            ("its registers", SEATED, b"REGS\n", REGISTERS),
            ("fitted", FITTED_START, b"RUN 2\n", "STOP 02 HALT STEPS 1 I 00502\n"),
            ("fitted with nothing again", FITTED, b"RUN 2\n", "STOP 08 LENGTH STEPS 0 I 00500\n"),
        ]:
            self.path.write_text(text)
            self.expect(name, program("resume", self.path, lines=lines), 0, replies)

    def test_what_fits_the_machine_is_left_out_as_any_command(self):
        self.path.write_text(FITTED)
        self.expect("left out", program("resume", "--until", "4", "--without", "1", "--journal", self.new, self.path))
        self.holds("the others", self.new, WITHOUT_THE_FIRST.encode())

    def test_a_command_has_one_text_however_it_was_typed(self):
        ran = program("console", "--size", "16000", "--journal", self.new, lines=TYPED.encode())
        self.expect("a console", ran, 0, "OK\n...")
        self.holds("its journal", self.new, OF_TYPED.encode())
        self.is_written_again("the journal", OF_TYPED, 12)

    def test_an_unfinished_last_line_is_discarded(self):
        for name, kept, rest, number in [
            ("a head", HEAD, "", None),
            ("a command that is cut", HEAD, LOADED[:7], 2),
            ("a line feed that is missing", HEAD, LOADED, 2),
            ("a whole line", f"{HEAD}{LOADED}\n", "", None),
            ("a number that is cut", f"{HEAD}{LOADED}\n", "2", 3),
        ]:
            self.path.write_text(kept + rest)
            error = f"ibm1401: line {number} was unfinished and was discarded\n" if number else ""
            self.expect(name, program("resume", self.path), 0, "", error)
            self.holds(f"{name}: what is left", self.path, kept.encode())


class Shown(JournalTextsTest):
    """Journals in columns."""

    def test_the_columns_of_each_seat_and_from_each_number(self):
        for text, words, shown in [
            (SEATED, ["--seat", "2"],
             "3 seat 2  DEPOSIT 0700 ~999            OK\n4 seat 2  EXAMINE 0700 3               ~999\n"),
            (SEATED, ["--from", "5"],
             "5 seat 0  SWITCH G ON                  OK\n6 seat 255  FEED  0                      OK\n"
             f"7 seat 0  REGS                         {REGISTERS}"),
            (SEATED, ["--from", "8"], ""),
            (SEATED, ["--seat", "7", "--from", "0"], ""),
            (FITTED, ["--seat", "1"],
             "1 seat 1  FIT MULTIPLY LENGTHS         OK\n5 seat 1  FIT NONE                     OK\n"),
        ]:
            self.path.write_text(text)
            self.expect(" ".join(words), program("journal", *words, self.path), 0, shown)


class Refused(JournalTextsTest):
    """Texts that are no journal's, each refused for its first wrong line."""

    def is_refused(self, text, fault):
        """A subtest: a text is refused for this line."""
        self.path.write_bytes(text.encode())
        ran = program("journal", "--check", self.path)
        self.expect(repr(text[-60:]), ran, 1, "", f"ibm1401: {self.path}: line {fault}\n")

    def test_first_lines(self):
        for text, fault in TEXTS:
            self.is_refused(text, fault)

    def test_entries(self):
        for lines, fault in LINES:
            self.is_refused(HEAD + lines, fault)

    def test_commands_that_no_line_says_and_other_spellings(self):
        for command in COMMANDS:
            self.is_refused(f"{HEAD}1\t0\t{command}\tOK\n", "2: 5 COMMAND")

    def test_an_entry_more_than_there_may_be(self):
        whole = HEAD + "".join(f"{number}\t0\tSTART 0005\tOK\n" for number in range(1, MOST_ENTRIES + 1))
        self.path.write_text(whole)
        self.expect("as many as there may be", program("journal", "--check", self.path), 0, f"{MOST_ENTRIES} entries\n")
        self.is_refused(f"{whole}{MOST_ENTRIES + 1}\t0\tSTART 0005\tOK\n", f"{MOST_ENTRIES + 2}: 7 FULL")

    def test_the_crate_and_the_page_have_each_fault(self):
        """No run shows the first: only a caller of the crate gets it."""
        source, page = (TOP / "crates/room_files/src/journal_fault.rt", TOP / "docs/FORMATS.md")
        self.same("the crate", re.findall(r'#\[error\("(\d \w+)"\)\]\s+(\w+),', source.read_text()), FAULTS)
        for text, _ in FAULTS:
            self.check(f"the page: {text}", "" if f"`{text}`" in page.read_text() else "it isn't there")


if __name__ == "__main__":
    unittest.main()
