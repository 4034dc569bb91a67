"""The line that says how a run ended: the statement at which it stopped, by the line that placed its cells; and why."""
import os
import pty
import re
import select
import subprocess
import tempfile
import time
import unittest
from pathlib import Path

from tests.peer import image
from tests.support import ProgramTest, program

TOP = Path(__file__).resolve().parents[2]
PROGRAM = Path(os.environ.get("IBM1401", TOP / "crates/ibm1401/out/ibm1401")).absolute()
SECONDS = 300

# A branch to itself, which goes on to its limit.
LOOP = "               ORG  400\n     START     B    START\n               END  START\n"

# Programs that stop at their first instruction: the cells by their addresses, the program's first, the stop, and why. A
# machine has 1,400 places here, so U50 is an address that it doesn't have: 1450.
PLAIN = [
    ({500: "~A001509~   ~."}, "ADDRESS", "no word mark from 001 down to 000 in the A field"),
    ({500: "~X12~."}, "NOTFITTED", "the operation X isn't fitted"),
    ({500: "~A12~."}, "LENGTH", "the operation A has no instruction of 3 characters"),
    ({500: "~ ~."}, "OPCODE", "the character blank is no operation"),
    ({500: "~2X~."}, "DCHAR", "the d-character X means nothing to the operation 2"),
    ({500: "~F ~."}, "DCHAR", "the d-character blank means nothing to the operation F"),
    ({500: "~L501500~."}, "ADDRESS", "loading to 500 writes over the A field's word mark at 500 before it is read"),
    ({600: "~L510507~.", 505: "~123456"}, "ADDRESS",
     "loading to 507 writes over the A field's word mark at 505 before it is read"),
    ({600: "~L707003~.", 700: "~12345678"}, "ADDRESS",
     "from 003 down core has no 8 places, as many as the A field"),
    ({600: "~A510507~.", 500: "~12345678901"}, "OVERLAP",
     "the A field from 510 down to 503 and the B field from 507 down to 500 overlap"),
]
# The same with all features.
PRODUCTS_AND_QUOTIENTS = [
    ({600: "~@001715~.", 700: "~123"}, "ADDRESS", "no word mark from 001 down to 000 in the A field"),
    ({600: "~@702U50~.", 700: "~123"}, "ADDRESS", "the B address 1450 isn't in core"),
    ({600: "~@702003~.", 700: "~123"}, "ADDRESS", "core has no place for a multiplier 4 places left of 003"),
    ({600: "~@722020~.", 720: "~123"}, "ADDRESS", "no word mark from 016 down to 000 in the multiplier"),
    # One address is that of the multiplicand and of the product.
    ({600: "~@713~.", 705: "~00000~0012"}, "OVERLAP",
     "the A field from 713 down to 710 and the product from 713 down to 705 overlap"),
    ({600: "~%701708~.", 700: "~12~0000145"}, "ADDRESS",
     "no place from 708 up to the end of core has a zone that ends the dividend"),
    ({600: "~%701U50~.", 700: "~12"}, "ADDRESS", "the B address 1450 isn't in core"),
    ({600: "~%005001~.", 1: "4E0~12"}, "ADDRESS", "from 002 down core has no 4 places for rest and quotient"),
    ({600: "~%715713~.", 710: "~00014E"}, "OVERLAP",
     "the A field from 715 down to 710 and rest and quotient from 715 down to 708 overlap"),
]
RECORDS_ADDRESSES_AND_BRANCHES = [
    ({600: "~P700710~.", 700: "ABC"}, "ADDRESS",
     "moving from 700 to 710 comes to the end of core before a record mark or a group mark with a word mark"),
    # A group mark without a word mark is none of them, and the record mark is past the last place at b.
    ({600: "~P700T96~.", 700: "A\"BC'"}, "ADDRESS",
     "moving from 700 to 1396 comes to the end of core before a record mark or a group mark with a word mark"),
    ({600: "~PU50700~.", 700: "A'"}, "ADDRESS", "the A address 1450 isn't in core"),
    ({600: "~#001702~.", 700: "001"}, "ADDRESS", "from 001 down core has no 3 places for an address"),
    ({600: "~#702001~.", 700: "001"}, "ADDRESS", "from 001 down core has no 3 places for an address"),
    ({600: "~#702U50~.", 700: "001"}, "ADDRESS", "the B address 1450 isn't in core"),
    ({600: "~W800U50A~."}, "ADDRESS", "the B address 1450 isn't in core"),
    ({600: "~H001700~."}, "ADDRESS", "from 001 down core has no 3 places for an address"),
    # The A register is 000 at power-on.
    ({600: "~Q~."}, "ADDRESS", "from 000 down core has no 3 places for an address"),
]
LENGTHS_AND_UNITS = [
    ({600: "~W12~."}, "LENGTH", "the operation W has no instruction of 3 characters"),
    ({600: "~8000~."}, "LENGTH", "the operation 8 has no instruction of 4 characters"),
    ({600: "~@7007101~."}, "LENGTH",
     "the operation @ has no instruction of 8 or more characters, and no word mark from 601 to 607 ends it"),
    ({600: "~X700710~."}, "NOTFITTED", "the operation X isn't fitted"),
    ({600: "~M%U1700R~."}, "TAPE", "tape unit 1 has no reel"),
    ({600: "~M%T0700R~."}, "NOTFITTED", "no tape unit has this name"),
]
ENDED = re.compile(r"ibm1401: (\w+) at (\d+)(?: \(.*\))?(?:: (.*))? after (\d+) steps?; "
                   r"0 cards read, 0 lines printed, 0 cards punched\n")


def ended(stop, shown, steps=0, why=""):
    """The last line of a run that reads, prints and punches nothing."""
    count = "1 step" if steps == 1 else f"{steps} steps"
    return f"ibm1401: {stop} ({shown}){why} after {count}; 0 cards read, 0 lines printed, 0 cards punched\n"


class SourceTest(unittest.TestCase):
    """Runs of a source of its own."""

    def setUp(self):
        made = tempfile.TemporaryDirectory()
        self.addCleanup(made.cleanup)
        self.source = Path(made.name) / "source"


class StopTest(SourceTest):
    """The statement at which a run stopped."""

    def last_line(self, lines, *words):
        """The last line of standard error after a run of these lines, below the warnings."""
        self.source.write_text(lines)
        ran = subprocess.run([PROGRAM, "run", self.source, *words], capture_output=True, timeout=SECONDS)
        return ran.stderr.decode().splitlines(keepends=True)[-1]

    def expect_limit(self, lines, shown, at="0400"):
        """At a limit of no step the statement at the entry is shown so."""
        wanted = ended(f"LIMIT at {at}", shown, why=": the step limit was reached")
        self.assertEqual(self.last_line(lines, "--limit", "0"), wanted)

    def test_a_blank_between_at_signs_is_part_of_the_operands(self):
        self.expect_limit(
            "               ORG  400\n"
            "     START     MLC  @A B@,201  REMARK\n"
            "               END  START\n",
            "line 2, START MLC @A B@,201",
        )

    def test_at_signs_that_are_closed_end_the_operands_at_a_blank(self):
        self.expect_limit(
            "               ORG  400\n"
            "     START     MLC  @A@,201 @B C@\n"
            "               END  START\n",
            "line 2, START MLC @A@,201",
        )

    def test_of_two_lines_with_the_same_cells_at_one_place_the_last_is_shown(self):
        self.expect_limit(
            "               ORG  400\n"
            "     FIRST     H    400\n"
            "               ORG  400\n"
            "     SECOND    H    400\n"
            "               END  400\n",
            "line 4, SECOND H 400",
        )

    def test_a_later_line_with_other_cells_at_the_place_is_shown(self):
        self.expect_limit(
            "               ORG  400\n"
            "     FIRST     H    400\n"
            "               ORG  400\n"
            "     SECOND    H    500\n"
            "               END  400\n",
            "line 4, SECOND H 500",
        )

    def test_operands_go_on_to_column_72_and_no_further(self):
        operands = f"@{'A' * 46}@,201"
        self.assertEqual(len(operands), 72 - 20)
        self.expect_limit(
            "               ORG  400\n"
            f"     START     MLC  {operands}REMARK\n"
            "               END  START\n",
            f"line 2, START MLC {operands}",
        )

    def test_a_statement_without_operands_is_shown_without_its_remark(self):
        self.expect_limit(
            "               ORG  400\n"
            "     START     R         READ A CARD\n"
            "               END  START\n",
            "line 2, START R",
        )

    def test_a_constant_over_an_instruction_has_it_shown_as_it_is_in_core(self):
        # The constant is at the second place of the instruction, and takes the mark away with it or not.
        for mark, shown in ("DC   @4@", "H 423"), ("DCW  @4@", "H"):
            with self.subTest(mark):
                self.expect_limit(
                    "               ORG  400\n"
                    "     START     H    123\n"
                    "               NOP\n"
                    "               ORG  401\n"
                    f"               {mark}\n"
                    "               END  START\n",
                    shown,
                )

    def test_the_number_of_a_line_has_as_many_digits_as_it_needs(self):
        # After 9,997 comments the statement is on line 9,999; after one more line it is on line 10,000.
        comments = "     * A COMMENT\n" * 9_997
        for more, number in ("", 9_999), ("\n", 10_000):
            with self.subTest(number):
                self.expect_limit(
                    comments + more + "               ORG  400\n"
                    "     START     H    START\n"
                    "               END  START\n",
                    f"line {number}, START H START",
                )

    def test_a_line_that_ends_in_a_carriage_return_is_shown_without_it(self):
        self.expect_limit(
            "               ORG  400\r\n"
            "     START     H    START\r\n"
            "               END  START\r\n",
            "line 2, START H START",
        )

    def test_a_constant_with_the_characters_of_an_instruction_is_shown(self):
        self.expect_limit(
            "               ORG  400\n"
            "     ENTRY     DCW  @.400@\n"
            "               NOP\n"
            "               END  400\n",
            "line 2, ENTRY DCW @.400@",
        )

    def test_an_equ_places_nothing_and_is_not_shown(self):
        self.expect_limit(
            "               ORG  400\n"
            "               H    123\n"
            "     START     EQU  400\n"
            "               END  START\n",
            "line 2, H 123",
        )

    def test_cells_after_an_instruction_are_none_of_a_shorter_line(self):
        # The line of the constant has one cell of the four that are the instruction's.
        self.expect_limit(
            "               ORG  400\n"
            "               DCW  @.@\n"
            "               DC   @123@\n"
            "               NOP\n"
            "               END  400\n",
            "H 123",
        )


class ReasonTest(ProgramTest):
    """Why a program stopped, and at which address."""

    def expect_stop(self, cells, words, stop, why, at=None, steps=0):
        """A subtest: a program of these cells ends so, at its entry if no other address is named."""
        entry, file = next(iter(cells)), self.folder / "program"
        file.write_text(image(entry, cells, size=1_400))
        ran = program("run", file, *words)
        line = ENDED.fullmatch(ran.stderr.decode())
        found = (ran.returncode, ran.stdout, line.groups() if line else ran.stderr)
        wanted = (stop, f"{at if at is not None else entry:04}", why, str(steps))
        self.same(f"{cells} {' '.join(words)}", found, (0 if stop == "HALT" else 1, b"", wanted))

    def expect_all(self, rows, *words):
        """Subtests: each program of a table ends so."""
        for cells, stop, why in rows:
            self.expect_stop(cells, words, stop, why)

    def test_the_places_of_fields_and_the_characters_at_fault(self):
        self.expect_all(PLAIN)

    def test_at_the_limit_the_reason_of_the_next_stop_is_not_given(self):
        for cells, _, _ in PLAIN:
            self.expect_stop(cells, ["--limit", "0"], "LIMIT", "the step limit was reached")

    def test_the_next_instruction_has_no_word_mark_or_no_place(self):
        for done, at, why in ("~B007~.", 7, "no word mark at 007"), ("~BU00~.", 1_400, "place 1400 isn't in core"):
            self.expect_stop({600: done}, [], "NOMARK", why, at, steps=1)

    def test_a_product_or_quotient_needs_its_places(self):
        self.expect_all(PRODUCTS_AND_QUOTIENTS, "--fit", "all")

    def test_records_addresses_and_branches_need_their_places(self):
        self.expect_all(RECORDS_ADDRESSES_AND_BRANCHES, "--fit", "all")

    def test_a_feature_leaves_lengths_that_no_machine_has(self):
        self.expect_all(LENGTHS_AND_UNITS, "--fit", "all")

    def test_a_branch_by_bits_without_an_address_needs_two_features(self):
        cells = {600: "~W~."}
        self.expect_stop(cells, ["--fit", "bit-test"], "LENGTH", "the operation W has no instruction of 1 character")
        self.expect_stop(cells, ["--fit", "lengths"], "NOTFITTED", "the operation W isn't fitted")

    def test_a_branch_of_one_character_names_its_register(self):
        """An H of seven leaves its second address in the B register."""
        for branch in "BVW":
            cells = {600: f"~H710U50~{branch}~."}
            self.expect_stop(cells, ["--fit", "all"], "ADDRESS", "the B address 1450 isn't in core", 607, steps=1)

    def test_a_halt_is_found_again(self):
        """Whatever its length is, and wherever it goes on."""
        plain = "~.", "~.500", "~.077"
        fitted = "~.1", "~.12", "~.0771", "~.07712", "~.077500", "~.0775001", "~.07750012"
        for words, halts in ([], plain), (["--fit", "all"], plain + fitted):
            for halt in halts:
                self.expect_stop({500: f"{halt}~."}, words, "HALT", None, steps=1)


class ProgressTest(SourceTest):
    """How far a run is, where standard error is a terminal."""

    def on_a_terminal(self, *words, has_paper=False):
        """What a run shows on the terminal that standard error is, to its end; and its paper, if that is there too."""
        ours, theirs = pty.openpty()
        ran = subprocess.Popen(
            [PROGRAM, "run", self.source, *words],
            stdin=subprocess.DEVNULL, stdout=theirs if has_paper else subprocess.DEVNULL, stderr=theirs,
        )
        os.close(theirs)
        shown, late = b"", time.monotonic() + SECONDS
        try:
            while time.monotonic() < late:
                if select.select([ours], [], [], 0.1)[0]:
                    try:
                        more = os.read(ours, 4_096)
                    except OSError:
                        break
                    if not more:
                        break
                    shown += more
        finally:
            ran.kill()
            status = ran.wait()
            os.close(ours)
        return status, shown

    def test_the_progress_line_is_taken_away_when_a_run_ends(self):
        self.source.write_text(LOOP)
        limit = 1_000_000
        counts = rb"(\r\d+ steps, 0 cards left, 0 lines\x1b\[K)+"
        # A run that is long enough, however fast the host is.
        while True:
            status, shown = self.on_a_terminal("--limit", str(limit))
            if re.match(counts, shown) or limit == 4_294_967_295:
                break
            limit = min(limit * 4, 4_294_967_295)
        self.assertEqual(status, 1)
        end = (
            f"ibm1401: LIMIT at 0400 (line 2, START B START): the step limit was reached after {limit} steps; "
            "0 cards read, 0 lines printed, 0 cards punched\r\n"
        ).encode()
        self.assertRegex(shown, rb"\A" + counts)
        self.assertTrue(shown.endswith(b"\x1b[K" + end), shown[-300:])
        # The line goes before the last one comes, and stays away.
        progress = shown[: -len(end)]
        self.assertTrue(progress.endswith(b"\x1b[K\r\x1b[K"), progress[-60:])

    def test_the_progress_line_gives_way_to_the_paper(self):
        # It counts for more than a second without a line, 300,000,000 steps, and then prints one.
        self.source.write_text("""\
               ORG  400
     START     A    ONE,COUNT
               C    COUNT,LAST
               B    START,/
               MCW  @HELLO@,205
               W
               H
     COUNT     DCW  @00000000@
     LAST      DCW  @99999999@
     ONE       DCW  @1@
               END  START
""")
        status, shown = self.on_a_terminal("--limit", "4294967295", has_paper=True)
        self.assertEqual(status, 0)
        self.assertRegex(shown, rb"\A(\r\d+ steps, 0 cards left, 0 lines\x1b\[K)+\r\x1b\[KHELLO")

    def test_a_short_run_shows_no_progress(self):
        self.source.write_text(LOOP)
        status, shown = self.on_a_terminal("--limit", "1")
        self.assertEqual(status, 1)
        self.assertTrue(shown.startswith(b"ibm1401: LIMIT"), shown[:60])


if __name__ == "__main__":
    unittest.main()
