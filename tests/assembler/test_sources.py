"""Sources and what the assembler makes of them: those of tests/sources/, a test each, and those that are refused."""
import unittest

from tests.source_texts import read_sources, wrong_source
from tests.support import TESTS, ProgramTest, program
from tests.texts import add_cases

# Sources that are refused, each with the line and the fault.
PLAIN_REFUSED = [
    (" " * 81, 1, "2 LONG LINE"),
    ("     * GOOD\n\n     * BAD \x01\n               END  0\n", 3, "3 GRAPHIC"),
    ("               ORG  400\n               B    NONE\n               END  400\n", 2, "7 UNDEFINED"),
    ("", 1, "10 NO END"),
    ("               a", 1, "3 GRAPHIC"),
    ("     X1        DCW  #1", 1, "4 LABEL"),
    ("     A         DCW  #1\n     A         DCW  #1", 2, "5 DOUBLE LABEL"),
    ("               MU   1", 1, "6 OPERATION"),
    ("     A              1,1", 1, "6 OPERATION"),
    ("               B    Q", 1, "7 UNDEFINED"),
    ("     A         EQU  B\n     B         NOP", 1, "7 UNDEFINED"),
    ("               BCE  Q", 1, "7 UNDEFINED"),
    ("               BCE  1,2,,X", 1, "8 OPERAND"),
    ("               EQU  *", 1, "4 LABEL"),
    ("     A         EQU  *", 1, "8 OPERAND"),
    ("12345", 1, "6 OPERATION"),
    ("               NOP  Q", 1, "8 OPERAND"),
    ("               DS   0", 1, "8 OPERAND"),
    ("               DA   2X4\n                    1,1", 2, "4 LABEL"),
    ("               DA   2X4\n     F              1,5", 2, "8 OPERAND"),
    ("               END  0\n               H", 2, "11 AFTER END"),
    ("               END  9999", 1, "9 OUT OF CORE"),
    ("               ORG  4001\n               END  0", 1, "9 OUT OF CORE"),
    ("               ORG  4000\n               NOP\n               END  0", 2, "9 OUT OF CORE"),
    ("     A         EQU  10-20\n               B    A\n               END  0", 1, "9 OUT OF CORE"),
]
WIDER_REFUSED = [
    ("     X1        DCW  #1\n     X1        EQU  89\n               END  0\n", 2, "5 DOUBLE LABEL"),
    ("     TAG       DCW  #3\n               CHAIN2\n               END  0\n", 2, "6 OPERATION"),
    ("               CTL  66\n               CTL  66\n               END  0\n", 2, "6 OPERATION"),
    ("               CTL  37\n               END  0\n", 1, "8 OPERAND"),
    ("     L         XFR  0\n               END  0\n", 1, "4 LABEL"),
    ("               XFR  4000\n               END  0\n", 1, "9 OUT OF CORE"),
    ("               ORG  3998\n               NOP\n               CHAIN2\n"
     "               END  0\n", 3, "9 OUT OF CORE"),
    ("               A    %U1,5\n               END  0\n", 1, "8 OPERAND"),
    ("               ENT  SPS\n               END  0\n", 1, "8 OPERAND"),
    ("               SFX  A\n     TAG       DCW  #1\n               SFX\n"
     "               B    TAG\n               END  0\n", 4, "7 UNDEFINED"),
    ("               ORG  *+X1\n               END\n", 1, "8 OPERAND"),
    ("     A         EQU  *+X00\n               END\n", 1, "8 OPERAND"),
    ("               DA   1X5,G,G\n               END\n", 1, "8 OPERAND"),
    ("               DSA  UNDEF,1\n               END\n", 1, "7 UNDEFINED"),
    ("               DSA  A\n     A         EQU  4000\n               END\n", 1, "9 OUT OF CORE"),
    ("               ORG  3990\n               DA   1X10,G\n               END\n", 2, "9 OUT OF CORE"),
    ("     BACK      ORG  BACK\n               END\n", 1, "7 UNDEFINED"),
    ("               ORG  0\n               END  *\n", 2, "9 OUT OF CORE"),
]

# Sources for core storage of a size, each with the line and the fault, if it has one.
LITERAL = "               ORG  1393\n               A    +5,0\n               END  0"
SIZED = [
    (1400, LITERAL, "3: 9 OUT OF CORE"),
    (2000, LITERAL, ""),
    (4000, "               ORG  4000\n               END  0\n     * A COMMENT", ""),
    (4000, "               END  3999\n", ""),
    (4000, f"{'     *':*<80}\n               END  0", ""),
    (2000, "               END  3999\n", "1: 9 OUT OF CORE"),
    (1400, "               B    99999+99999\n               END  0", "1: 9 OUT OF CORE"),
    (16_000, "               B    99999+99999\n               END  0", "1: 9 OUT OF CORE"),
    (8000, "               END  9999", "1: 9 OUT OF CORE"),
    (12_000, "               END  9999", ""),
    (16_000, "               END  15999", ""),
    (16_000, "               END  16000", "1: 9 OUT OF CORE"),
    (16_000, "               ORG  16000\n               END  0", ""),
    (16_000, "               ORG  16001\n               END  0", "1: 9 OUT OF CORE"),
    (16_000, "               ORG  16000\n               NOP\n               END  0", "2: 9 OUT OF CORE"),
    (16_000, "               ORG  15999\n               DCW  @AB@\n               END  0", "2: 9 OUT OF CORE"),
    (16_000, "     A         EQU  16000\n               END  A", "1: 9 OUT OF CORE"),
]


FILES = sorted((TESTS / "sources").glob("*.txt"))


class SourcesOfTables(ProgramTest):
    """Sources of the tables, a subtest each, and long ones."""

    def test_each_file_has_sources(self):
        self.assertTrue(FILES)
        for file in FILES:
            self.check(file.name, "" if read_sources(file.read_text()) else "it has none")

    def try_source(self, name, text, words=(), fault="", parts=None):
        """A subtest: a source has this fault, or none, and this is made of it."""
        self.check(name, wrong_source(self.folder / "source", text, words, fault, parts))

    def test_refused_in_the_plain_language(self):
        for text, number, fault in PLAIN_REFUSED:
            self.try_source(repr(text.strip()), text, fault=f"{number}: {fault}")

    def test_refused_in_the_wider_language(self):
        for text, number, fault in WIDER_REFUSED:
            self.try_source(repr(text.strip()), text, ["--language", "ibm"], f"{number}: {fault}")

    def test_for_each_size_of_core_storage(self):
        for size, text, fault in SIZED:
            self.try_source(f"{size} places: {text.strip()!r}", text, ["--size", str(size)], fault)

    def test_a_source_of_70000_lines(self):
        comments = "     * A COMMENT\n" * 69_999
        self.try_source("its last line is at fault", f"{comments}               ZZZ\n", fault="70000: 6 OPERATION")
        self.try_source("it has no fault", f"{comments}               END  0\n")
        listed = program("assemble", "--list", self.folder / "source").stdout.count(b"\n")
        self.same("all its lines are listed", listed, 70_000)

    def test_10000_empty_lines(self):
        empty = "\n" * 10_000
        self.try_source("END is missed after them", empty, fault="10001: 10 NO END")
        image = {"image": ["IMAGE2 04000", "END 00400"]}
        self.try_source("they place nothing", f"{empty}               END  400", parts=image)
        listing = program("assemble", "--list", self.folder / "source").stdout.splitlines()
        self.same("all are listed", len(listing), 10_001)
        self.same("by their numbers", listing[9_999], b"10000")


def wrong_text(test, source):
    """What is wrong with a source of a file."""
    return wrong_source(test.folder / "source", source.text, source.words, source.fault, source.parts)


add_cases(globals(), FILES, read_sources, wrong_text)


if __name__ == "__main__":
    unittest.main()
