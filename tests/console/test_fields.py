"""Operations on fields as tables, worked out by hand from the manual's rules: each row is a session of its own. As on
the console '~' before a graphic is its word mark."""
import unittest

from tests.session_texts import GRAPHICS, Session, fitted_with_all, registers, wrong_in
from tests.support import ProgramTest

# The operation, the A field, the B field, the B field afterwards, and whether it overflows.
SUMS = r"""
one place, like signs: the zone over the units stays, and A's isn't added
A|~5|~3|~8|
A|~5|~7|~2|overflow
A|~5|~G|~B|overflow
A|~5|~S|~X|
A|~E|~3|~8|
A|~V|~B|~G|
A|~N|~K|~P|
A|~N|~R|~M|overflow
A|~0|~0|~0|
A|~ |~ |~0|
A|~&|~5|~5|
A|~5|~^|~V|
A|~!|~-|~!|

one place, unlike signs
A|~N|~7|~B|
A|~R|~7|~K|
A|~P|~7|~?|
A|~7|~P|~!|
A|~-|~5|~E|

like signs: the zone over the high place is B's, A's there and 1 for overflow
A|~12|~34|~46|
A|~99|~01|~'0|overflow
A|~1|~99|~'0|overflow
A|~A|~49|~50|
A|~J2|~S3|~C5|
A|~A1|~J1|~S2|
A|~E0|~60|~10|overflow
A|~E1|~F2|~A3|overflow
A|~9J2|~34|~M6|
A|~123|~45|~68|
A|~19|~1|~0|overflow
A|~001|~1S3|~124|
A|~0J1|~123|~134|
A|~1K|~3M|~4O|
A|~5J|~6K|~/L|overflow
A|~1 |~ 5|~15|

unlike signs: a zone over the units alone, and no overflow
A|~P|~05|~0K|
A|~N|~07|~0B|
A|~100|~00J|~09I|
A|~00J|~100|~09I|
A|~00J|~AS5|~12D|
A|~S0J|~300|~09I|
A|~12|~1K|~0!|
A|~1K|~1S|~0?|
A|~99J|~12|~7R|

8-3 to 8-7 count as 3 to 7
A|~#|~@|~7|
A|~:>|~(0|~S6|overflow
A|~$|~"|~D|
A|~_|~]|~K|overflow
S|~5|~E|~?|
S|~N|~3|~8|
S|~N|~K|~C|
S|~7|~5|~K|
S|~7|~K|~R|
S|~3|~R|~K|overflow
S|~1|~100|~09I|
S|~AK|~23|~C5|
S|~99|~00|~9R|
?|~1K|~9S?A|~001K|
?|~5|~J|~E|
?|~'|~9|~?|
?|~123|~99|~2C|
?|~  |~99|~0?|
?|~#|~9|~C|
!|~1K|~9S?A|~001B|
!|~$|~9|~C|
!|~-|~9|~?|
!|~0|~12|~0!|
"""
# The A field, the B field, and what the B field is found to be.
COMPARISONS = r"""
~12|~012|HIGH
~99|~012|HIGH
~12|0~12|EQUAL
~12|~12|EQUAL
~12|~13|HIGH
~19|~21|HIGH
~21|~19|LOW
~22|~12|LOW
~912|~12|EQUAL
~912|~13|HIGH
~A|~1|HIGH
~Z|~0|HIGH
~A|~!|HIGH
~!|~J|HIGH
~?|~0|HIGH
~ |~-|HIGH
~-|~&|LOW
~ |~ |EQUAL
~12|9~2|EQUAL
~SMITH|~SMYTH|HIGH
~JONES|~JANET|LOW
"""
# The A field, the control word, and what is shown.
EDITS = r"""
~00257426|~   ,  0.  &CR|  2,574.26   |
~00000005|~   ,  0.  &CR|       .05   |
~0025742O|~   ,  0.  &CR|  2,574.26 CR|
~1234|~   ,  0.  |     12.34|
~00005|~  ,   |00,005|
~2K|~ 0-|22-|
~2B|~ 0-|22 |
~1~2&4|~  0,  &C|  2,&4  |
~12|~$ * 0|$ *12|
"""
# Fields that are suppressed over seven places with word marks, and those places afterwards.
SUPPRESSED = r"""
~0012P|~Z~Z  127~Z
~0,0,10|~Z    10~Z
~00!|~Z~Z~Z~Z   ~Z
~1,000|~Z~Z1,000~Z
~00.01|~Z~Z  .01~Z
~A|~Z~Z~Z~Z~Z~Z1~Z
"""
# A field added to itself, subtracted from itself or put into itself, the field afterwards, and whether it overflows.
ON_ITSELF = r"""
A|~123|~246|
A|~6J|~SK|overflow
A|~A7|~L4|
S|~123|~00?|
S|~4L|~0!|
?|~4S|~4B|
!|~4S|~4K|
"""
# Operations that can't be carried out: the size of core storage, a place and the cells that are there and stay so, and
# the operations with the A and the B address of each and why it stops.
SUMS_REFUSED = "AS?!"
REFUSED = [
    (4000, 709, "~123", SUMS_REFUSED, [(711, 710, "OVERLAP"), (710, 711, "OVERLAP")]),
    # no word mark
    (1400, 0, "", "A", [(700, 710, "ADDRESS")]),
    # no B field; B isn't in core; A isn't in core
    (1400, 1, "23~4~0", SUMS_REFUSED,
     [(1, 2, "ADDRESS"), (4, 1400, "ADDRESS"), (1400, 4, "ADDRESS"), (15_999, 4, "ADDRESS")]),
    # B isn't in core; A isn't in core; no word mark above address 0
    (4000, 700, "~12", "C", [(701, 4000, "ADDRESS"), (4000, 701, "ADDRESS"), (1, 0, "ADDRESS")]),
    (1400, 0, "12~   ~CR", "E",
     [(1, 1, "ADDRESS"), (1, 1400, "ADDRESS"), (1, 4, "ADDRESS"), (1400, 6, "ADDRESS"), (4, 4, "OVERLAP"),
      (6, 6, "OVERLAP"), (5, 6, "OVERLAP")]),
    (1400, 1, "~012~3", "Z",
     [(3, 2, "OVERLAP"), (3, 5, "OVERLAP"), (3, 1, "ADDRESS"), (3, 1400, "ADDRESS"), (0, 3, "ADDRESS"),
      (1400, 3, "ADDRESS")]),
]
STOPS = {"ADDRESS": "09", "OVERLAP": "10"}
# The instruction is above all fields.
AT = 1000


def rows(table):
    """The rows of a table, each as its parts."""
    return [line.split("|") for line in table.splitlines() if "|" in line]


def places(text):
    """How many places cells take."""
    return len(text.replace("~", ""))


def length(text):
    """The length of the field whose units are the last of these cells."""
    return places(text[text.rindex("~") :])


def coded(address):
    """An address as three characters of an instruction."""
    thousands, rest = divmod(address, 1000)
    digits = [int(digit) or 10 for digit in f"{rest:03}"]
    zones = [thousands % 4, 0, thousands // 4]
    return "".join(GRAPHICS[16 * zone + digit] for zone, digit in zip(zones, digits, strict=True))


def deposit(address, cells):
    """Puts cells into core storage."""
    return [(f"DEPOSIT {address} {cells}", "OK")]


def examine(address, cells):
    """Expects cells in core storage."""
    return [(f"EXAMINE {address} {places(cells)}", cells)]


def carry_out(operation, a, b, stop=None):
    """Carries out one instruction, or finds that it stops."""
    said = f"{STOPS[stop]} {stop} STEPS 0 I {AT:05}" if stop else f"01 LIMIT STEPS 1 I {AT + 7:05}"
    return [*deposit(AT, f"~{operation}{coded(a)}{coded(b)}~."), (f"START {AT}", "OK"), ("RUN 1", f"STOP {said}")]


def expect(a, b, *on):
    """Expects these registers after the instruction, and these indicators alone."""
    return [("REGS", registers(AT + 7, a, b, on=on))]


def sums():
    """A session for each sum, in which the A field and the cells on both sides of the B field stay."""
    for operation, a, b, after, overflow in rows(SUMS):
        at_a, at_b, next_to_b = 99 + places(a), 199 + places(b), 200 + places(b)
        given = deposit(100, a) + deposit(200, b) + deposit(199, "Z") + deposit(next_to_b, "~Z")
        given += carry_out(operation, at_a, at_b)
        given += expect(at_a - min(length(a), length(b)), at_b - length(b), *["OVERFLOW"] * bool(overflow))
        given += examine(100, a) + examine(199, f"Z{after}~Z")
        yield Session(f"{operation} {a} {b}", 1400, given)


def comparisons():
    """A session for each comparison."""
    for a, b, found in rows(COMPARISONS):
        at_a, at_b, used = 99 + places(a), 199 + places(b), min(length(a), length(b))
        given = deposit(100, a) + deposit(200, b) + carry_out("C", at_a, at_b)
        given += expect(at_a - used, at_b - used, *["UNEQUAL", found] * (found != "EQUAL"))
        yield Session(f"{a} {b}", 1400, given)


def edits():
    """A session for each edit, in which the A field and the cells on both sides of the control word stay."""
    for a, word, shown, _ in rows(EDITS):
        next_to_b = 720 + places(word)
        given = deposit(700, a) + deposit(720, word) + deposit(719, "~Z") + deposit(next_to_b, "~Z")
        given += carry_out("E", 699 + places(a), next_to_b - 1)
        yield Session(f"{a} {word}", 1400, given + examine(700, a) + examine(719, f"~Z{shown}~Z"))


def suppressed():
    """A session for each field that is suppressed, which stays."""
    for a, after in rows(SUPPRESSED):
        given = deposit(700, a) + deposit(718, "~Z" * 8) + carry_out("Z", 699 + places(a), 724)
        yield Session(a, 1400, given + expect(699, 725) + examine(700, a) + examine(718, after))


def on_itself():
    """A session for each operation of a field on itself."""
    for operation, field, after, overflow in rows(ON_ITSELF):
        units = 299 + places(field)
        given = deposit(300, field) + carry_out(operation, units, units)
        given += expect(299, 299, *["OVERFLOW"] * bool(overflow)) + examine(300, after)
        yield Session(f"{operation} {field}", 1400, given)


def refused():
    """A session for each operation and its addresses that can't be carried out, which leave the cells as they are."""
    for size, place, cells, operations, stopped in REFUSED:
        for operation in operations:
            given = deposit(place, cells) if cells else []
            for a, b, stop in stopped:
                given += carry_out(operation, a, b, stop) + (examine(place, cells) if cells else [])
            yield Session(f"{operation} {cells}", size, given)


class Fields(ProgramTest):
    """The operations of the tables, each row at a machine of its own, and once more at one with each feature."""

    def hold(self, sessions):
        """Two subtests for each session."""
        for session in sessions:
            for each in session, fitted_with_all(session):
                self.check(each.name, wrong_in(each))

    def test_sums_and_differences(self):
        self.hold(sums())

    def test_comparisons(self):
        self.hold(comparisons())

    def test_edits(self):
        self.hold(edits())

    def test_suppressed_zeros(self):
        self.hold(suppressed())

    def test_a_field_on_itself(self):
        self.hold(on_itself())

    def test_what_is_refused_leaves_the_cells_as_they_are(self):
        self.hold(refused())


if __name__ == "__main__":
    unittest.main()
