"""Each operation on tape by itself: the cells, the reels and the B register that it leaves, here and on i1401."""
import re
import unittest
from typing import NamedTuple

from tests.chains import OURS
from tests.peer import deposits, image, peer, with_peer
from tests.support import ProgramTest, program

# Where the area is, and where the program is.
AREA, START = 201, 600
MARK = "("


class Row(NamedTuple):
    """What is done: its name, the cells of the area before, the instructions, the records of unit 1, the cells of the
    area afterwards, the B register, and the records of unit 2 afterwards. A record is the characters on tape."""

    name: str
    before: str
    done: str
    reel: list
    after: str
    b: int
    made: list = []


ROWS = [
    Row("a move reads a record and leaves the marks", "~X~X~X~X~X", "~M%U1201R", ["AB^", MARK], '~A~B~ ~"~X', 205),
    Row("a load has the marks of the tape", "~X~X~X~X~X", "~L%U1201R", ["A=BC"], 'A~BC"~X', 205),
    Row("a separator after a separator is a character", "~X~X~X~X~X", "~L%U1201R", ["==A"], '~=A"~X~X', 204),
    Row("a separator at the end is nothing", "~X~X~X~X~X", "~L%U1201R", ["AB="], 'AB"~X~X', 204),
    Row("a move reads a separator as it is", "XXXXXX", "~M%U1201R", ["A=BC"], 'A=BC"X', 206),
    Row("a group mark with a word mark ends it", 'XX~"XX', "~M%U1201R~M%U1205R", ["ABCDE", "FG"], 'AB~"XFG"', 208),
    Row("and stays where the record ends with it", 'XX~"XX', "~M%U1201R", ["AB"], 'AB~"XX', 204),
    Row("a group mark without one doesn't", 'XX"XX', "~M%U1201R", ["ABCD"], 'ABCD"', 206),
    Row("a load ends there too", '~XX~"XX', "~L%U1201R", ["A=B=CD"], 'A~B~"XX', 204),
    Row("odd parity leaves bit A alone", "XXXX", "~M%B1201R", ["A^B"], 'A^B"', 205),
    Row("a move writes the characters", 'A~B C~"', "~M%U2201W", [], 'A~B C~"', 206, ["AB^C"]),
    Row("a load writes separators", 'A~B C~"', "~L%U2201W", [], 'A~B C~"', 206, ["A=B^C"]),
    Row("a load writes one before a separator", '~=A~"', "~L%U2201W", [], '~=A~"', 204, ["==A"]),
    Row("odd parity has blanks", 'A~B C~"', "~M%B2201W", [], 'A~B C~"', 206, ["AB C"]),
    Row("a group mark without a word mark is written", 'A"B~"', "~M%U2201W", [], 'A"B~"', 205, ['A"B']),
    Row("tape marks", 'A~"', "~U%U2M~U%U2M~M%U2201W", [], 'A~"', 203, [MARK, MARK, "A"]),
    Row("a rewound reel is read again", "XXX", "~M%U1201R~U%U1R~M%U1203R", ["AB", "CD"], 'ABAB"', 206),
    Row("a record is read again", "XXX", "~M%U1201R~M%U1203R~U%U1B~M%U1205R", ["AB", "CD"], 'ABCDCD"', 208),
    Row("nothing is before the first record", "XXX", "~U%U1B~M%U1201R", ["AB", "CD"], 'AB"', 204),
    Row("a record takes the place of another", 'A~"', "~M%U2201W~U%U2B~M%U2201W", [], 'A~"', 203, ["A"]),
    Row("an erasure does nothing", 'A~"', "~M%U2201W~U%U2E~M%U2201W", [], 'A~"', 203, ["A", "A"]),
    Row("the end of a file branches", "XXX", "~M%U1201R~B660K~M%U1201R", [MARK, "AB"], '("X', 613),
    Row("only once", "XXX", "~M%U1201R~B613K~B660K~M%U1201R", [MARK, "AB"], 'AB"', 204),
    Row("no branch without it", "XXX", "~M%U1201R~B660K~M%U1203R", ["AB", "CD"], 'ABCD"', 206),
]
# What i1401 does otherwise: an end of file that comes to the end of the area is lost, a control leaves the unit's name
# in B, a longer record stays on the reel under a shorter one, and a backspace over a tape mark is the end of a file.
ALONE = [
    Row("a tape mark that ends an area", 'X~"', "~M%U1201R~M%U1201R~B660K~.", ["AB", ""], '(~"', 621),
    Row("a control leaves B", 'A~"', "~M%U2201W~U%U2M", [], 'A~"', 203, ["A", MARK]),
    Row("a shorter record", 'ABC~"XY~"', "~M%U2201W~M%U2201W~U%U2R~M%U2205W", [], 'ABC~"XY~"', 208, ["XY"]),
    Row("a tape mark under the head", "XXX", "~M%U1201R~B613K~U%U1B~B660K~M%U1201R", [MARK], '("X', 203),
    Row("a unit has a latch of its own", "XXX", "~M%U1201R~U%U2M~B660K~U%U1B~B660K~.", [MARK], '("X', 628, [MARK]),
    Row("an unloaded reel has none", 'XXXA~"', "~M%U1201R~U%U1U~B660K~M%U2204W", [MARK], '("XA~"', 206, ["A"]),
]
# A reel that is loaded: its first record is a program with word marks, which prints the second.
LOADED = ["=M%U1201R=2=.=.", "HELLO^THERE"]
# Where the branch of a row goes: the end of the program, as after its instructions.
END = "~H320~2~2)~.~."


def program_of(row):
    """The cells of the program, by their addresses."""
    return {AREA: row.before, START: row.done + END, 660: END}


def codes(record):
    """The bytes of a record; one without characters is a tape mark as it is written."""
    if not record:
        return bytes(4)
    body = bytes(OURS.index(each) for each in record)
    size = len(body).to_bytes(4, "little")
    return size + body + b"\0" * (len(body) % 2) + size


def records_in(text):
    """The records of a reel; a tape mark is that of its character."""
    records, at = [], 0
    while at < len(text):
        size = int.from_bytes(text[at:at + 4], "little")
        records.append("".join(OURS[each % 64] for each in text[at + 4:at + 4 + size]) or MARK)
        at += 8 + size + size % 2 if size else 4
    return records


class OperationsTest(ProgramTest):
    """A folder with two reels."""

    def setUp(self):
        names = "reel", "made", "program", "paper"
        self.reel, self.made, self.program, self.paper = (self.folder / each for each in names)

    def put_reels(self, row):
        """Makes the reel of unit 1, and removes that of unit 2."""
        self.reel.write_bytes(b"".join(codes(record) for record in row.reel))
        self.made.unlink(missing_ok=True)


class Here(OperationsTest):
    """This machine."""

    def test_each_row(self):
        for row in ROWS + ALONE:
            self.put_reels(row)
            self.program.write_text(image(START, program_of(row)))
            ran = program("run", self.program, "--tape", f"1={self.reel}", "--tape", f"2={self.made}:new")
            text = row.after.replace("~", "")
            marks = "".join("1" if mark else " " for mark in re.findall("(~?).", row.after))
            wanted = f"{text:117}{row.b:03}\n{marks.rstrip()}\n"
            self.expect(row.name, ran, 0, wanted, "ibm1401: HALT at 0...")
            self.same(f"{row.name}: the reel", records_in(self.made.read_bytes()), row.made)

    def test_the_trace_names_the_unit_and_its_record(self):
        row = Row("", "XXX", "~M%U1201R~B660K~M%U1201R~B626K~U%U1R", ["AB", MARK], "", 0)
        self.put_reels(row)
        self.program.write_text(image(START, program_of(row)))
        trace = self.folder / "trace"
        ran = program("run", self.program, "--tape", f"1={self.reel}", "--trace", trace)
        self.expect("the run", ran, 0, "...", "ibm1401: HALT at ...")
        done = [line.split("\t")[5:] for line in trace.read_text().splitlines()]
        read = ["TAPE 1 RECORD 1", '00201|XXX|AB"'], [], ["TAPE 1 RECORD 2", '00201|AB|("']
        self.same("what each step did", done[:5], [*read, [], ["TAPE 1 RECORD 0"]])

    def test_a_program_is_loaded_from_tape(self):
        self.reel.write_bytes(b"".join(map(codes, LOADED)))
        for words in [f"1={self.reel}"], [f"1={self.reel}:ring", "--tape", f"2={self.made}:new"]:
            self.made.unlink(missing_ok=True)
            ran = program("run", "--load-tape", *words)
            end = "ibm1401: HALT at 0010 (H) after 3 steps; 0 cards read, 1 line printed, 0 cards punched, tape 1 at "
            self.expect(f"{words}", ran, 0, 'HELLO THERE"\n', f"{end}...")


@with_peer
class Peer(OperationsTest):
    """i1401."""

    def test_a_program_is_loaded_from_tape(self):
        self.reel.write_bytes(b"".join(map(codes, LOADED)))
        said = peer(f"attach -r mt1 {self.reel}", f"attach lpt {self.paper}", "boot mt1")
        self.check("it halts", "" if "HALT" in said else said)
        self.holds("its paper", self.paper, "HELLO THERE...")

    def test_each_row(self):
        for row in ROWS:
            self.put_reels(row)
            core = [line for at, cells in program_of(row).items() for line in deposits(at, cells)]
            shown = f"examine {AREA}-{AREA + 9}"
            said = peer(f"attach -r mt1 {self.reel}", f"attach mt2 {self.made}", f"attach lpt {self.paper}", *core,
                        f"go {START}", shown, "examine 318-320")
            self.check(f"{row.name}: it halts", "" if "HALT" in said else said)
            found = [int(code, 8) for code in re.findall(r"^\d+:\t(\d+)$", said.replace("sim> ", ""), re.MULTILINE)]
            wanted = [OURS.index(char) + 64 * bool(mark) for mark, char in re.findall("(~?)(.)", row.after)]
            self.same(f"{row.name}: the cells", found[:10], wanted + [0] * (10 - len(wanted)))
            self.same(f"{row.name}: B", [OURS[code] for code in found[10:]], list(f"{row.b:03}"))
            self.same(f"{row.name}: the reel", records_in(self.made.read_bytes()), row.made)


if __name__ == "__main__":
    unittest.main()
