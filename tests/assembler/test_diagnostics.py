"""`assemble --all`: all faults of a source, and the warnings of one that assembles."""
import unittest

from tests.source_texts import GOOD, IMAGE
from tests.support import EXAMPLES, ProgramTest, program, shell

# Three faults of their own; the field in line 5 only follows from line 4.
FAULTY = """\
     A         QQ   1
     A         H
     B         MLC  Q,B
     REC       DA   2Y4
     KEY            3,4
               END  A
"""

LINES_OF_FAULTY = [
    "1:16: OPERATION: QQ isn't an operation",
    "2:6: DOUBLE LABEL: line 1 has the label A already",
    "3:21: UNDEFINED: Q isn't the label of any line",
    "4:21: OPERAND: 2Y4 isn't a number of areas and their length, such as 2X80",
]


# How what is too high for core storage of 4,000 places is said.
PAST = "past the last place in core, 3999, which --size sets"
# Sources with something outside core, each with what is said of it.
OUTSIDE_CORE = [
    ("               ORG  4000\n               H\n               END  0\n",
     f"2:1: OUT OF CORE: its last place is 4000, 1 {PAST}"),
    ("               ORG  3999\n               B    20,X\n               END  0\n",
     f"2:1: OUT OF CORE: its last place is 4003, 4 {PAST}"),
    ("     A         EQU  3998\n               MLC  A,A+10\n               END  0\n",
     f"2:1: OUT OF CORE: the second operand is 4008, 9 {PAST}"),
    ("     A         EQU  3998\n               MLC  A+2+X1,A\n               END  0\n",
     f"2:1: OUT OF CORE: the first operand is 4000, 1 {PAST}"),
    ("               MLC  5-6,5\n               END  0\n", "1:1: OUT OF CORE: the first operand is -1, which is below 0"),
    ("               MLC  5,*+4000\n               END  0\n",
     f"1:1: OUT OF CORE: the second operand is 4339, 340 {PAST}"),
    ("               MLC  +A+4000,5\n     A         DCW  1\n               END  0\n",
     f"1:1: OUT OF CORE: the first operand is 4340, 341 {PAST}"),
    ("               MLC  X3+4000,5\n               END  0\n",
     f"1:1: OUT OF CORE: the first operand is 4099, 100 {PAST}"),
    ("               ORG  4001\n               END  0\n", f"1:1: OUT OF CORE: its value is 4001, 2 {PAST}"),
    ("     A         EQU  5-10\n               END  0\n", "1:1: OUT OF CORE: its value is -5, which is below 0"),
    ("               EX   4100\n               END  0\n", f"1:1: OUT OF CORE: its value is 4100, 101 {PAST}"),
    ("               END  4000\n", f"1:1: OUT OF CORE: its value is 4000, 1 {PAST}"),
    ("               MLC  @ABC@,5\n               LTORG3999\n               END  0\n",
     f"2:1: OUT OF CORE: the last place of its literals is 4001, 2 {PAST}"),
]
# A source with a fault of each kind but those above, and the lines that report it.
FAULTS_OF_A_KIND = [
    (" " * 81 + "\n" + GOOD, ["1:81: LONG LINE: a line has at most 80 columns"]),
    ("     A         h\n" + GOOD, ["1:16: GRAPHIC: the small letter h isn't allowed in this column"]),
    ("     A\tH\n" + GOOD, ["1:7: GRAPHIC: a tab isn't allowed in this column"]),
    ("     A         \a\n     * \tA TAB IN A COMMENT\n" + GOOD,
     ["1:16: GRAPHIC: the byte 7 isn't allowed in this column", "2:8: GRAPHIC: a tab isn't allowed in this column"]),
    ("                H\n" + GOOD, ["1:17: OPERATION: the operation begins after column 16"]),
    ("     A        MLC  A,A\n" + GOOD,
     ["1:6: LABEL: columns 6 to 15 hold more than a label, and an operation begins in column 16"]),
    ("              MLC  1,2\n" + GOOD, ["1:15: LABEL: a label begins in column 6, and an operation in column 16"]),
    ("     X1        DCW  #1\n               EQU  5\n     LABEL     ORG  5\n" + GOOD,
     ["1:6: LABEL: X1 isn't a label", "2:6: LABEL: the operation needs a label",
      "3:6: LABEL: the operation takes no label"]),
    ("               MLL  TOTL,5\n     TOTAL     EQU  LAST\n     LAST      DCW  #1\n     F              1,2\n" + GOOD,
     ["1:16: OPERATION: MLL isn't an operation; did you mean MLC?",
      "2:21: UNDEFINED: LAST is the label of line 3, but this operation takes only labels of earlier lines",
      "4:16: OPERATION: a line without an operation is a field, but no areas are above it"]),
    ("     TOTAL     DCW  #1\n               MLC  TOTL,5\n               B    Q\n" + GOOD,
     ["2:21: UNDEFINED: TOTL isn't the label of any line; did you mean TOTAL?",
      "3:21: UNDEFINED: Q isn't the label of any line"]),
    ("               MLC  5,&6\n               SAR\n               BCE  1,2\n               H    1,2\n" + GOOD,
     ["1:23: OPERAND: &6 is neither an address nor a literal", "2:21: OPERAND: an address is missing",
      "3:24: OPERAND: the d-character is missing", "4:22: OPERAND: ,2 is more than the operation takes"]),
    ("               DCW  X\n               DCW\n               DS   #4\n     A         EQU  *\n" + GOOD,
     ["1:21: OPERAND: X isn't a constant", "2:21: OPERAND: an operand is missing",
      "3:21: OPERAND: #4 isn't a number of places from 1 to 15999",
      "4:21: OPERAND: * has no value; a number or a label has one"]),
    ("     TAG       MLC  TAG, TAG\n               BCE  TAG, TAG,X\n" + GOOD,
     ["1:25: OPERAND: a blank after the comma ends the operands",
      "2:25: OPERAND: a blank after the comma ends the operands"]),
    ("     LONGLABEL H    5\n" + GOOD,
     ["1:6: LABEL: LONGLABEL is longer than a label, which has at most six characters"]),
    (f"               DCW  @{51 * 'A'}@\n               DCW  {21 * '1'}\n               MLC  +{21 * '2'},5\n" + GOOD,
     [f"1:21: OPERAND: @{51 * 'A'} has no second at sign up to column 72; a text has at most 50",
      f"2:21: OPERAND: {21 * '1'} is longer than a number of 20 digits",
      f"3:21: OPERAND: +{21 * '2'} is longer than a number of 20 digits"]),
    ("               DS   16000\n" + GOOD, ["1:21: OPERAND: 16000 isn't a number of places from 1 to 15999"]),
    ("     REC       DA   2X4\n     F              3,2\n" + GOOD, ["2:23: OPERAND: 2 isn't a valid place for a field"]),
    ("     REC       DA   2X4\n     F              3,5\n" + GOOD, ["2:23: OPERAND: the field ends after its area"]),
    ("     *\n" * 9, ["10:1: NO END: the source ends without END"]),
    (GOOD + "     *\n               H\n", ["3:16: AFTER END: only comments may follow END"]),
    ("               ZZZ\n" + " " * 81 + "\n" + GOOD,
     ["1:16: OPERATION: ZZZ isn't an operation", "2:81: LONG LINE: a line has at most 80 columns"]),
]

NO_OPERAND = "WARNING: no operand names the label"
NEVER_SET = "WARNING: no instruction sets the indicator that the branch tests"

# The examples with a label that no operand names, and the line that has it.
UNUSED = {"five_and_five": 6}

# Sources that assemble, and their warnings.
WARNED = [
    ("     A         H    A\n     B         DCW  #1\n     C         EQU  A\n               END  A\n",
     [f"2:6: {NO_OPERAND}", f"3:6: {NO_OPERAND}"]),
    ("     A         BE   A\n               BAV  A\n               DCW  #1\n               END  A\n",
     [f"1:16: {NEVER_SET}", f"2:16: {NEVER_SET}"]),
    ("     A         C    A,A\n               BE   A\n               S    A\n               BAV  A\n"
     "               DCW  #1\n               END  A\n", []),
    ("     A         C    +5,B\n               A    +1,B\n     B         DCW  0\n               END  A\n",
     ["1:21: WARNING: a signed literal never equals a number without a sign"]),
    ("     A         C    +5,B\n               ZA   +1,B\n     B         DCW  0\n               END  A\n", []),
    ("     A         H    A\n               END  A\n",
     ["1:16: WARNING: no word mark is at 00337: the instruction runs on"]),
    ("     A         B    A\n               END  A\n", []),
    ("     A         H    A\r\n     *\r\n               DCW  #1\r\n               END  A\r\n", []),
]
# Instructions and chains: each machine carries out lines 7, 9 and 12, and none carries out lines 16 and 18.
FITTED = """\
     ENTRY     M    A,B
               D    A,B
               MCM  A,B
               MA   A
               BBE  ENTRY,A,1
               BBE
               BCE  ENTRY,A,X
               CHAIN2
               BW   ENTRY,A
               CHAIN1
               SBR  A,B
               SAR  A
               CHAIN1
               H    0,7
               SRF
               SPF  ENTRY
               SPF
               MIZ  A,B
               RT   1,A
               RWD  1
     A         DCW  #3
     B         DCW  #3
               END  ENTRY
"""
NOT_FITTED = "WARNING: this machine has no instruction of this operation and length"
# The lines of it that a machine with each of these features doesn't carry out.
UNFITTED = [
    ("", [1, 2, 3, 4, 5, 6, 8, 10, 11, 13, 14, 15, 16, 17, 18, 19, 20]),
    ("multiply", [3, 4, 5, 6, 8, 10, 11, 13, 14, 15, 16, 17, 18, 19, 20]),
    ("move-record", [1, 2, 4, 5, 6, 8, 10, 11, 13, 14, 15, 16, 17, 18, 19, 20]),
    ("modify-address", [1, 2, 3, 5, 6, 8, 10, 11, 13, 14, 15, 16, 17, 18, 19, 20]),
    ("bit-test", [1, 2, 3, 4, 6, 8, 10, 11, 13, 14, 15, 16, 17, 18, 19, 20]),
    ("lengths", [1, 2, 3, 4, 5, 6, 15, 16, 17, 18, 19, 20]),
    ("read-punch-release", [1, 2, 3, 4, 5, 6, 8, 10, 11, 13, 14, 16, 18, 19, 20]),
    ("tapes", [1, 2, 3, 4, 5, 6, 8, 10, 11, 13, 14, 15, 16, 17, 18]),
    ("bit-test,lengths", [1, 2, 3, 4, 15, 16, 17, 18, 19, 20]),
    ("all", [16, 18]),
]
# A division sets the overflow if it is fitted, and a multiplication sets no indicator.
DIVISION = """\
     ENTRY     D    A,B
               BAV  ENTRY
               H    ENTRY
     A         DCW  #3
     B         DCW  #7
               END  ENTRY
"""
# An address is stored with its zone if that is fitted.
STORED = """\
     ENTRY     SBR  COUNT,ENTRY
               C    +005,COUNT
               BE   ENTRY
               H    ENTRY
     COUNT     DCW  000
               END  ENTRY
"""
UNLIKE_SIGNS = "2:21: WARNING: a signed literal never equals a number without a sign"
# Sources for machines with features, and their warnings.
WARNED_FITTED = [
    *((FITTED, features, [f"{line}:16: {NOT_FITTED}" for line in lines]) for features, lines in UNFITTED),
    *((DIVISION, features, [f"1:16: {NOT_FITTED}", f"2:16: {NEVER_SET}"]) for features in ("", "lengths")),
    (DIVISION, "multiply", []),
    (DIVISION.replace(" D ", " M "), "all", [f"2:16: {NEVER_SET}"]),
    *((STORED, features, [f"1:16: {NOT_FITTED}", UNLIKE_SIGNS]) for features in ("", "multiply")),
    (STORED, "lengths", []),
]


class Faults(ProgramTest):
    """All faults of a source."""

    def setUp(self):
        self.source, self.out = self.folder / "a source", self.folder / "out"

    def lines(self, reported):
        """What standard error has for these lines of the source."""
        return "".join(f"{self.source}:{line}\n" for line in reported)

    def test_each_fault_of_its_own(self):
        self.source.write_text(FAULTY)
        for words in [], ["--list"], ["-o", self.out], [f"--output={self.out}"]:
            name = " ".join(map(str, words))
            ran = program("assemble", "--all", self.source, *words)
            self.expect(f"--all {name}", ran, 1, "", self.lines(LINES_OF_FAULTY))
        self.check("no file is made", "there is one" if self.out.exists() else "")
        self.expect("without --all", program("assemble", self.source), 1, "", "ibm1401: line 1: 6 OPERATION\n")

    def test_each_kind(self):
        for text, reported in FAULTS_OF_A_KIND:
            self.source.write_text(text)
            self.expect(reported[0], program("assemble", "--all", self.source), 1, "", self.lines(reported))

    def test_what_is_outside_core(self):
        """The operand or the place is named, with the place that it would be, and by how much that is too high."""
        for text, reported in OUTSIDE_CORE:
            self.source.write_text(text)
            outside = self.lines([reported])
            self.expect(reported, program("assemble", "--language", "ibm", "--all", self.source), 1, "", outside)

    def test_standard_error_that_takes_nothing(self):
        self.source.write_text(FAULTY)
        self.expect("it", shell('"$0" assemble --all "$1" 2>/dev/full', self.source), 1)

    def test_a_source_without_a_fault(self):
        self.source.write_text(GOOD)
        self.expect("its image", program("assemble", "--all", self.source), 0, IMAGE)

    def test_what_is_no_fault_of_a_source(self):
        none = self.folder / "none"
        for words, fault in [(["--size", "1401"], "size refused"), ([], f"cannot read {none}")]:
            self.expect(fault, program("assemble", "--all", *words, none), 1, "", f"ibm1401: {fault}\n")


class Warnings(ProgramTest):
    """The warnings of a source that assembles, which change nothing else."""

    def setUp(self):
        self.source, self.out = self.folder / "a source", self.folder / "out"

    def test_each_warning(self):
        for text, reported in WARNED:
            self.source.write_bytes(text.encode())
            lines = "".join(f"{self.source}:{line}\n" for line in reported)
            for words in [], ["--list"], ["--symbols", "--xref"]:
                alone = program("assemble", self.source, *words)
                self.expect(f"{words}, without --all: {text!r}", alone, 0, "...")
                ran = program("assemble", "--all", self.source, *words)
                self.expect(f"{words}: {reported}", ran, 0, alone.stdout, lines)
            image = program("assemble", self.source).stdout
            self.expect(f"-o: {reported}", program("assemble", "--all", self.source, "-o", self.out), 0, "", lines)
            self.holds(f"-o: the image of {text!r}", self.out, image)
            for error in "2>/dev/full", "2>&-":
                ran = shell(f'"$0" assemble --all "$1" {error}', self.source)
                self.expect(f"{error}: the image of {text!r}", ran, 0, image)

    def test_for_a_machine_with_features(self):
        for text, features, reported in WARNED_FITTED:
            self.source.write_text(text)
            words = ["--all", *(["--fit", features] if features else [])]
            ran = program("assemble", "--language", "ibm", *words, self.source)
            lines = "".join(f"{self.source}:{line}\n" for line in reported)
            self.expect(f"{text.split()[1]}, fitted with {features or 'none'}", ran, 0, "IMAGE2 04000\n...", lines)

    def test_a_source_with_faults_has_no_warning(self):
        self.source.write_text(FAULTY.replace("QQ   1", "BE   A"))
        lines = "".join(f"{self.source}:{line}\n" for line in LINES_OF_FAULTY[1:])
        self.expect("faults alone", program("assemble", "--all", self.source), 1, "", lines)

    def test_an_image_that_cannot_be_written_has_no_warning(self):
        self.source.write_text("     A         DCW  #1\n               END  0\n")
        ran = program("assemble", "--all", self.source, "-o", "/dev/full")
        self.expect("-o /dev/full", ran, 1, "", "ibm1401: cannot write /dev/full\n")

    def test_a_long_source(self):
        self.source.write_text("     A         DCW  #1\n               END  0\n" + "     *\n" * 100_000)
        ran = program("assemble", "--all", self.source)
        self.expect("its warning", ran, 0, "...", f"{self.source}:1:6: {NO_OPERAND}\n")

    def test_examples(self):
        for page in sorted(EXAMPLES.glob("*.source")):
            wanted = page.with_suffix(".image").read_bytes()
            warned = f"{page}:{UNUSED[page.stem]}:6: {NO_OPERAND}\n" if page.stem in UNUSED else ""
            self.expect(page.name, program("assemble", "--all", page), 0, wanted, warned)


if __name__ == "__main__":
    unittest.main()
