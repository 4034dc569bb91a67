"""How much memory a file takes that is read whole: a few bytes for each of its own."""
import os
import subprocess
import sys
import tempfile
import unittest
from pathlib import Path

from tests.support import MOST_CARDS, a_port
from tests.tape_reels import tape

TOP = Path(__file__).resolve().parents[2]
PROGRAM = Path(os.environ.get("IBM1401", TOP / "crates/ibm1401/out/ibm1401")).absolute()

# The most bytes that a file may have, and the most memory for each of them.
MOST_BYTES = 16_777_216
MOST_EACH = 8
# What FAILURES allows for tables of areas in a listing, for those of labels, and for the entries of a journal.
MOST_OF_AREAS, MOST_OF_LABELS, MOST_OF_ENTRIES = 33, 9, 24
# A few segments, or lines, fewer than a journal has entries.
MOST_SEGMENTS = 90_000

BEGIN = b"               ORG  400\n     START     H\n               NOP\n"
END = b"               END  START\n"
HALT = (BEGIN + END).decode()

# Sources of empty lines, of comments and of short statements, and images of short segments and of word marks, as their
# first bytes, what comes again and again, and their last bytes.
EMPTY_LINES = (BEGIN, b"\n", END)
COMMENTS = (BEGIN, b"     *\n", END)
STATEMENTS = (BEGIN, b"               ORG  0\n", b"               ORG  404\n" + END)
SHORT_SEGMENTS = (b"IMAGE1 4000\n", b"0400 01 A\n", b"END 0400\n")
WORD_MARKS = (b"IMAGE2 16000\n", b"00400 40 " + b"~A" * 40 + b"\n", b"END 00400\n")

# Sources of lines without statements, by what their lines are.
SPARSE = {"empty lines": EMPTY_LINES, "comments": COMMENTS}
# What is done with a source. A listing is written a page after the other.
TABLES = ["--symbols", "--xref"]
OF_SOURCES = (
    ["assemble"], ["assemble", "--list"], ["assemble", "--list", *TABLES], ["assemble", "--deck", "deck"], ["run"],
)

# The letters of labels and their digits.
LETTERS = "ABCDEFGHIJKLMNOPQRSTUVWXYZ"
GRAPHICS = LETTERS + "0123456789"
# The end of a source that has placed its lines again and again.
PLACED_AGAIN = b"               ORG  400\n"


def label(number):
    """A label of two letters or more, another one for each number; the short ones come first."""
    found = ""
    while number >= 0:
        number, graphic = divmod(number, len(GRAPHICS))
        found += GRAPHICS[graphic]
        number -= 1
    return "L" + found


def again(size, line, last=b""):
    """A source of this many bytes or a few fewer, whose lines are what `line` gives for each number from 0 on, and the
    last."""
    lines, rest, number = [BEGIN], size - len(BEGIN) - len(last) - len(PLACED_AGAIN) - len(END), 0
    while len(text := line(number).encode()) <= rest:
        lines.append(text)
        rest, number = rest - len(text), number + 1
    return b"".join([*lines, last, PLACED_AGAIN, END])


def labelled(number):
    """An instruction with a label of its own; each thousandth goes back to the first place."""
    return f"     {label(number):10}H\n" + PLACED_AGAIN.decode() * (number % 1_000 == 999)


# Sources whose lines say something, each with its status in both languages: a line of one byte, an operation that isn't
# known; a label alone, which is none either; an instruction with a label; EQUs of a number; and short statements.
SAYING = {
    "lines of one byte": (1, lambda number: "1\n"),
    "labels alone": (1, lambda number: f"     {label(number)}\n"),
    "labelled instructions": (0, labelled),
    "EQUs": (0, lambda number: f"     {label(number):10}EQU  1\n"),
    "short statements": (0, lambda number: "               ORG  0\n"),
}
# Symbols that the last line of a source declares, a long one and a short one.
TAILS = "TAIL", "T"
# A few labels more than a table has room for before it doubles: nine times a power of two.
GROWN_LABELS = 590_000


def with_literals(number):
    """An instruction with two literals of its own; after each hundredth all are placed, from the same place on."""
    placed = b"               EX   400\n" + PLACED_AGAIN
    return f"               A    +{number + 1},-{number + 1}\n" + placed.decode() * (number % 100 == 99)


def area_with_field(number):
    """Nine areas with a field, and a label of its own."""
    return f"               ORG  4000\n               DA   9X90,G\n     {label(number):10}     1,5\n"


def equal_below(tail):
    """A line for each number, an EQU of this symbol; and the last line, which declares it."""
    return lambda number: f"     {label(number):10}EQU  {tail}\n", f"     {tail:10}EQU  1\n".encode()


# Areas that lines place again and again, where those above are: twelve large ones, and many small ones.
AREAS = ("12X999", "99X121")
# What is done with these.
OF_STATEMENTS = (["assemble"], ["assemble", "--language", "ibm"])

# Calls that hold one segment of an image at a time, each with its status and the image.
OF_IMAGES = {
    "short segments disassembled": (0, SHORT_SEGMENTS, ["disassemble"]),
    "short segments run": (1, SHORT_SEGMENTS, ["run", "--limit", "5"]),
    "word marks disassembled": (0, WORD_MARKS, ["disassemble"]),
    "word marks run": (1, WORD_MARKS, ["run", "--limit", "5"]),
}

# How many bytes a source has that takes longer, and sources that are listed, each with its call.
SHORTER_BYTES = 4_194_304
LISTED = {
    "a listing of empty lines in a file": (EMPTY_LINES, ["assemble", "-o", "out", "--list"]),
    "a source of short statements listed": (STATEMENTS, ["assemble", "--list"]),
}


# Makes a call, and prints its status and the most memory that it took, in kibibytes. It is a process of its own: what
# the caller of a process had counts as that process's too, and this one has little. By the first call, which its
# processes inherit, the system gives no huge pages, which would be taken whole for a few bytes, and at times of its own.
# Each processor keeps count of some pages for itself, so all of it is done on one.
MEASURE = """
import ctypes, os, subprocess, sys
ctypes.CDLL(None).prctl(41, 1, 0, 0, 0)
os.sched_setaffinity(0, {min(os.sched_getaffinity(0))})
null = subprocess.DEVNULL
ran = subprocess.Popen(sys.argv[1:], stdin=null, stdout=null, stderr=null)
_, ended, used = os.wait4(ran.pid, 0)
print(os.waitstatus_to_exitcode(ended), used.ru_maxrss)
"""


class MemoryTest(unittest.TestCase):
    """Decks of 16 MiB, against decks of a few bytes."""

    def setUp(self):
        made = tempfile.TemporaryDirectory()
        self.addCleanup(made.cleanup)
        self.folder = Path(made.name)
        (self.folder / "source").write_text(HALT)

    def peak(self, status, *words):
        """The most memory that a call took, in bytes. Its status is looked at."""
        call = [sys.executable, "-S", "-c", MEASURE, PROGRAM, *words]
        ran = subprocess.run(call, cwd=self.folder, capture_output=True, check=True, text=True)
        ended, kibibytes = map(int, ran.stdout.split())
        self.assertEqual(ended, status, words)
        return kibibytes * 1_024

    def expect_few(self, status, small, large, *words, most=MOST_EACH):
        """A call takes at most so many bytes for each byte of `file` more than it does for a short one."""
        file = self.folder / "file"
        file.write_bytes(small)
        before = self.peak(status, *words)
        file.write_bytes(large)
        each = (self.peak(status, *words) - before) / (len(large) - len(small))
        self.assertLessEqual(each, most, f"{each:.1f} bytes of memory for a byte of {' '.join(words)}")

    def test_a_deck_of_blank_cards_takes_a_few_bytes_a_card(self):
        self.expect_few(0, b"\n", b"\n" * MOST_BYTES, "run", "source", "--cards", "file")

    def test_a_deck_of_short_and_of_full_cards_does_too(self):
        for line in b"A\n", b"A" * 80 + b"\n":
            with self.subTest(line[:2]):
                self.expect_few(0, line, line * (MOST_BYTES // len(line)), "run", "source", "--cards", "file")

    def test_a_deck_that_becomes_a_reel_does_too(self):
        for line in b"\n", b"A\n", b"A" * 80 + b"\n":
            with self.subTest(line[:2]):
                many = line * min(MOST_BYTES // len(line), MOST_CARDS)
                self.expect_few(0, line, many, "reel", "--from-deck", "-o", "/dev/null", "file")

    def test_a_reel_does_too(self):
        for record in ["A"], ["A" * 80]:
            text = tape(record, b"")
            for mounted in "1=file", "1=file:ring":
                with self.subTest(f"{len(record[0])} {mounted}"):
                    many = text * (MOST_BYTES // len(text))
                    self.expect_few(0, text, many, "run", "source", "--tape", mounted)

    def test_a_deck_that_is_loaded_does_too(self):
        # The first card halts.
        first = b",008009.\n"
        self.expect_few(0, first, first + b"\n" * (MOST_BYTES - len(first)), "run", "--load", "file")

    def test_a_deck_in_the_hand_of_a_person_does_too(self):
        (self.folder / "lines").write_text("deck file\n")
        calls = ["source", "--cards", "file"], ["--load", "file"], ["source", "--do", "lines"]
        for line in b"\n", b"A\n", b"A" * 80 + b"\n":
            for call in calls:
                with self.subTest(f"{line[:2]}: {' '.join(call)}"):
                    self.expect_few(0, line, line * (MOST_BYTES // len(line)), "operate", *call)

    def test_two_decks_do_too(self):
        first = b",008009.\n"
        (self.folder / "more").write_bytes(b"\n" * MOST_BYTES)
        small = self.folder / "few"
        small.write_bytes(b"\n")
        (self.folder / "file").write_bytes(first)
        before = self.peak(0, "run", "--load", "file", "--cards", "few")
        (self.folder / "file").write_bytes(first + b"\n" * (MOST_BYTES - len(first)))
        each = (self.peak(0, "run", "--load", "file", "--cards", "more") - before) / (2 * MOST_BYTES)
        self.assertLessEqual(each, MOST_EACH, f"{each:.1f} bytes of memory for a byte")

    def test_images_take_a_few_bytes_a_byte(self):
        for name, (status, (first, again, last), call) in OF_IMAGES.items():
            with self.subTest(name):
                many = (MOST_BYTES - len(first) - len(last)) // len(again)
                self.expect_few(status, first + again + last, first + again * many + last, *call, "file")

    def test_an_image_that_is_loaded_takes_a_few_bytes_a_byte(self):
        # Its segments are more than the journal has entries.
        first, again, last = SHORT_SEGMENTS
        many = (MOST_BYTES - len(first) - len(last)) // len(again)
        small, large = first + again * 100_001 + last, first + again * many + last
        for call in ["load"], ["serve", "--seats", "1", "--keep-seats", "--port", a_port(), "--image"]:
            with self.subTest(call[0]):
                self.expect_few(1, small, large, *call, "file")

    def test_what_is_no_image_and_no_journal_takes_a_few_bytes_a_byte(self):
        for text in b"\n", b" ", b"A":
            for call in "load", "disassemble", "journal":
                with self.subTest(f"{call} {text}"):
                    self.expect_few(1, text, text * MOST_BYTES, call, "file")

    def test_a_source_of_one_long_line_takes_a_few_bytes_a_byte(self):
        for text in b" ", b"A":
            with self.subTest(text):
                self.expect_few(1, text, text * MOST_BYTES, "run", "file")

    def test_empty_lines_and_comments_take_a_few_bytes_a_byte(self):
        for name, (first, again, last) in SPARSE.items():
            many = (MOST_BYTES - len(first) - len(last)) // len(again)
            for call in OF_SOURCES:
                with self.subTest(f"{name}: {' '.join(call)}"):
                    self.expect_few(0, first + again + last, first + again * many + last, *call, "file")

    def test_lines_that_say_something_take_a_few_bytes_a_byte(self):
        for name, (status, line) in SAYING.items():
            # The shorter one has more statements than are held.
            small, large = again(SHORTER_BYTES // 4, line), again(SHORTER_BYTES, line)
            for call in OF_STATEMENTS:
                with self.subTest(f"{name}: {' '.join(call)}"):
                    self.expect_few(status, small, large, *call, "file")

    def test_a_run_of_them_reports_faults_a_page_after_the_other(self):
        for name, (status, line) in SAYING.items():
            small, large = again(SHORTER_BYTES // 4, line), again(SHORTER_BYTES, line)
            with self.subTest(name):
                self.expect_few(status, small, large, "run", "file")

    def test_all_faults_take_a_few_bytes_a_byte(self):
        status, line = SAYING["lines of one byte"]
        small, large = again(SHORTER_BYTES // 4, line), again(SHORTER_BYTES, line)
        self.expect_few(status, small, large, "assemble", "--all", "file")

    def test_literals_take_a_few_bytes_a_byte(self):
        small, large = again(1_000, with_literals), again(SHORTER_BYTES, with_literals)
        self.expect_few(0, small, large, "assemble", "file")

    def test_areas_placed_again_take_a_few_bytes_a_byte(self):
        for areas in AREAS:
            line = f"               ORG  4000\n               DA   {areas}\n"
            small, large = (again(size, lambda number: line) for size in (1_000, SHORTER_BYTES // 4))
            for call in ["assemble"], ["run"]:
                with self.subTest(f"{areas}: {call[0]}"):
                    self.expect_few(0, small, large, *call, "--size", "16000", "file")

    def test_a_console_for_a_person_takes_no_more_for_them(self):
        # The journal is full before all of them are loaded, and that is reported, in either source.
        for areas in AREAS:
            line = f"               ORG  4000\n               DA   {areas}\n"
            small, large = (again(size, lambda number: line) for size in (SHORTER_BYTES // 4, SHORTER_BYTES // 2))
            with self.subTest(areas):
                self.expect_few(1, small, large, "operate", "--size", "16000", "file")

    def test_symbols_that_a_line_below_declares_take_a_few_bytes_a_byte(self):
        for tail in TAILS:
            line, last = equal_below(tail)
            small, large = (again(size, line, last) for size in (SHORTER_BYTES // 4, SHORTER_BYTES))
            for call in "assemble", "run":
                with self.subTest(f"{tail}: {call}"):
                    self.expect_few(0, small, large, call, "--language", "ibm", "file")

    def test_the_longest_source_of_them_and_one_whose_tables_have_just_grown_do_too(self):
        for tail in TAILS:
            line, last = equal_below(tail)
            small = again(SHORTER_BYTES // 4, line, last)
            for size in GROWN_LABELS * len(line(0)), MOST_BYTES:
                with self.subTest(f"{tail}: {size}"):
                    self.expect_few(0, small, again(size, line, last), "run", "--language", "ibm", "file")

    def test_tables_of_areas_and_of_labels_take_more(self):
        small, large = (again(size, area_with_field) for size in (SHORTER_BYTES // 16, SHORTER_BYTES // 4))
        for table in TABLES:
            with self.subTest(table):
                call = ["assemble", "--language", "ibm", "--size", "16000", "--list", table]
                self.expect_few(0, small, large, *call, "file", most=MOST_OF_AREAS)
        status, line = SAYING["EQUs"]
        small, large = again(SHORTER_BYTES // 4, line), again(SHORTER_BYTES, line)
        self.expect_few(status, small, large, "assemble", "--list", *TABLES, "file", most=MOST_OF_LABELS)

    def test_a_journal_takes_as_much_as_its_entries(self):
        # An entry takes 232 bytes, however short its segment or its line is.
        first, again, last = SHORT_SEGMENTS
        small, large = (first + again * many + last for many in (10, MOST_SEGMENTS))
        for call in ["load"], ["operate"], ["serve", "--seats", "1", "--keep-seats", "--port", a_port(), "--image"]:
            with self.subTest(call[0]):
                self.expect_few(0, small, large, *call, "file", most=MOST_OF_ENTRIES)
        small, large = (b"JOURNAL1 4000\n" + b"".join(b"%d\t0\tSTART 0400\tOK\n" % (number + 1) for number in range(many))
                        for many in (10, MOST_SEGMENTS))
        for call in ["journal", "--check"], ["journal"], ["resume"]:
            with self.subTest(" ".join(call)):
                self.expect_few(0, small, large, *call, "file", most=MOST_OF_ENTRIES)

    def test_sources_and_listings_take_a_few_bytes_a_byte(self):
        for name, ((first, again, last), call) in LISTED.items():
            with self.subTest(name):
                many = (SHORTER_BYTES - len(first) - len(last)) // len(again)
                self.expect_few(0, first + again + last, first + again * many + last, *call, "file")

    def test_a_deck_that_is_more_than_the_hopper_holds_does_too(self):
        self.expect_few(
            1, b"\n" * 501, b"\n" * MOST_BYTES,
            "serve", "--seats", "1", "--port", "1", "--cards", "file",
        )


if __name__ == "__main__":
    unittest.main()
