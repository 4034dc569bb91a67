"""`run`: paper, punched cards, trace and the last line, of programs that end, stop or go on without an end."""
import os
import pty
import re
import select
import subprocess
import unittest

from tests.jobs import (DONE, LIMIT, LINES_WITHOUT_END, LIST_AND_PUNCH, NO_CARD, ONE_LINE, ROUND, SALES, SALES_CALL,
                        SALES_ENDING, STEPS, SWITCHED, ending, paper_of, statement)
from tests.peer import image
from tests.support import EXAMPLES, MOST_TRIALS, PROGRAM, SECONDS, TOP, ProgramTest, program, run, wait_until

# Steps and their lines, worked out by hand. Programs are at 600: their cells, how many cards they have with ABC in the
# first columns, and the line of the first step.
TRACED = [
    # A move of one character.
    ("~M610611~.00~5~3", 0, "00600\t~M610611 \tMCW  610,611        \t00609\t00610\t00611|~3|~5\n"),
    # 07 and 15 are 22: both digits change, and are one change.
    ("~A611613~.00~07~15", 0, "00600\t~A611613 \tA    611,613        \t00609\t00611\t00612|~15|~22\n"),
    # Word marks at two places that aren't next to each other.
    ("~,608610~.576", 0,
     "00600\t~,608610 \tSW   608,610        \t00607\t00609\t00608|5|~5\t00610|6|~6\n"),
    ("~B650~.", 0, "00600\t~B650    \tB    650            \t00650\t00604\n"),
    ("~1~.", 1, "00600\t~1       \tR                   \t00000\t00081\tREAD\t00001|   |ABC\n"),
    ("~2~.", 0,
     "00600\t~2       \tW                   \t00000\t00333\tPRINT 0001/01\tCARRIAGE 0001/02\n"),
    ("~4~.", 0, "00600\t~4       \tP                   \t00000\t00181\tPUNCH\n"),
    ("~FK~.", 0, "00600\t~FK      \tCC   K              \t00000\t00000\tCARRIAGE 0001/03\n"),
    ("~.~.", 0, "00600\t~.       \tH                   \t00000\t00000\tHALT\n"),
    ("~1~.", 0, "00600\t~1       \tR                   \t00000\t00000\tREADER\n"),
    # Cells without a word mark are no instruction.
    ("M610611~.", 0, "00600\tM610611  \tMCW  610,611        \t00000\t00000\tNOMARK\n"),
]
# The same with all features, and without cards.
TRACED_WITH_FEATURES = [
    # 3 times 7 is 21, in three places.
    ("~@610614~.00~30~7  ", "00600\t~@610614 \tM    610,614        \t00609\t00611\t00612|~7  |~02A\n"),
    # 21 by 3 is 07, and the rest 00.
    ("~%610614~.00~30002A", "00600\t~%610614 \tD    610,614        \t00609\t00612\t00613|02A|G0?\n"),
    # A character and the record mark.
    ("~P610614~.00A'", "00600\t~P610614 \tMCM  610,614        \t00612\t00616\t00614|  |A'\n"),
    # 001 added to 099.
    ("~#612617~.0000100099", "00600\t~#612617 \tMA   612,617        \t00609\t00614\t00615|099|100\n"),
    # A and C have both zones in common.
    ("~W650610A~.0C", "00600\t~W650610A\tBBE  650,610,A      \t00650\t00608\n"),
    ("~H612650~.00000", "00600\t~H612650 \tSBR  612,650        \t00609\t00650\t00610|00|65\n"),
    ("~8~.", "00600\t~8       \tSRF                 \t00000\t00000\n"),
    ("~.12~.", "00600\t~.12     \tH    12             \t00000\t00000\tHALT\n"),
    ("~@610003~.00~30", "00600\t~@610003 \tM    610,003        \t00000\t00000\tADDRESS\n"),
]
# Two skips to channel 1 after the next print, then three spaces in their place, two spaces at once, and a print.
WAITING = "~FA~FA~FT~FK~2~."
TRACE_OF_WAITING = [
    "00600\t~FA      \tCC   A              \t00000\t00000\tPENDING SKIP 04\n",
    "00602\t~FA      \tCC   A              \t00000\t00000\n",
    "00604\t~FT      \tCC   T              \t00000\t00000\tPENDING SPACE 3\n",
    "00606\t~FK      \tCC   K              \t00000\t00000\tCARRIAGE 0001/03\n",
    "00608\t~2       \tW                   \t00000\t00333\tPRINT 0001/03\tCARRIAGE 0001/06\n",
]


class Examples(ProgramTest):
    """The examples, and what pages show of them."""

    def test_a_source_and_an_image(self):
        paper = SALES.with_suffix(".paper").read_bytes()
        self.expect("sales.source", program("run", *SALES_CALL), 0, paper, SALES_ENDING)
        ran = program("run", f"{SALES}.image", *SALES_CALL[1:])
        self.expect("sales.image", ran, 0, paper, ending("HALT", 463, 24, 3, 2, shown="H 463"))

    def test_programs_without_a_deck(self):
        ends = ("five_and_five", 0, 414, 3, "line 4"), ("sum_to_ten", 10, 446, 73, "line 12")
        for name, lines, address, steps, shown in ends:
            source = EXAMPLES / f"{name}.source"
            paper = source.with_suffix(".paper").read_bytes() if lines else b""
            end = ending("HALT", address, steps, printed=lines, shown=f"{shown}, H *-3")
            self.expect(source.name, program("run", source), 0, paper, end)

    def test_programs_with_a_deck(self):
        """Paper, punched cards and counts are those of the example's session at the console."""
        decks = [deck for deck in sorted(EXAMPLES.glob("*.cards")) if deck.with_suffix(".console").exists()]
        self.assertTrue(decks)
        for deck in decks:
            self.hold_to_session(deck)

    def hold_to_session(self, deck):
        """Subtests: the run of an example is its session."""
        lines, replies = (deck.with_suffix(suffix).read_text() for suffix in (".console", ".out"))
        steps, address = re.search(r"^STOP 02 HALT STEPS (\d+) I (\d+)$", replies, re.MULTILINE).groups()
        counts = [len(re.findall(f"^{word} ", text, re.MULTILINE)) for word, text in
                  (("FEED", lines), ("LINE", replies), ("CARD", replies))]
        switches = ["--switches", "A"] if "SWITCH A ON\n" in lines else []
        punch = self.folder / f"{deck.stem}.punch"
        ran = program("run", deck.with_suffix(".source"), "--cards", deck, "--punch", punch, *switches)
        shown = statement(deck.with_suffix(".listing").read_text(), int(address))
        end = ending("HALT", int(address), int(steps), *counts, shown)
        self.expect(f"{deck.name}: its paper", ran, 0, deck.with_suffix(".paper").read_bytes(), end)
        punched = deck.with_suffix(".punched")
        self.holds(f"{deck.name}: its punched cards", punch, punched.read_bytes() if punched.exists() else b"")

    def test_what_pages_run(self):
        of_sum = ending("HALT", 446, 73, printed=10, shown="line 12, H *-3")
        for name, end in ("README.md", SALES_ENDING), ("docs/RUNNING.md", SALES_ENDING), ("docs/TUTORIAL.md", of_sum):
            text = (TOP / name).read_text()
            shown = re.search(r"```sh\n(\./ibm1401 run [^\n]*)\n```\n\n```text\n(.*?)```", text, re.DOTALL)
            self.expect(name, run(["bash", "-c", shown[1]], cwd=self.top), 0, shown[2], end)
            self.check(f"{name}: the end", "" if end[:-1] in " ".join(text.split()) else "it is another")

    def test_a_pipe_that_a_page_shows(self):
        text = (TOP / "docs/RUNNING.md").read_text()
        shown = re.search(r"### In a pipe\n.*?```sh\n(.*?)```", text, re.DOTALL)
        ran = run(["bash", "-c", shown[1]], cwd=self.top)
        self.check("its end", "" if ran.stderr.startswith(b"ibm1401: HALT at 0463 ") else "it is another")
        self.expect("its paper", ran, 0, SALES.with_suffix(".paper").read_bytes(), "...")

    def test_the_source_of_tutorial_is_its_example(self):
        shown = re.search(r"```autocoder\n(.*?)```", (TOP / "docs/TUTORIAL.md").read_text(), re.DOTALL)
        self.assertEqual((EXAMPLES / "sum_to_ten.source").read_text(), shown[1])


class Traces(ProgramTest):
    """A run with a trace: the trace, and paper, cards and counts as without one."""

    def setUp(self):
        self.trace = self.folder / "trace"
        self.wanted = SALES.with_suffix(".trace").read_bytes()

    def test_the_trace_of_an_example(self):
        paper = SALES.with_suffix(".paper").read_bytes()
        self.expect("its paper", program("run", *SALES_CALL, "--trace", self.trace), 0, paper, SALES_ENDING)
        self.holds("its trace", self.trace, self.wanted)
        shown = re.search(r"## The trace\n.*?```text\n(.*?)```", (TOP / "docs/RUNNING.md").read_text(), re.DOTALL)
        self.check("RUNNING.md shows lines of it", "" if shown and shown[1].encode() in self.wanted else "others")

    def test_up_to_a_limit(self):
        ran = program("run", *SALES_CALL, "--trace", self.trace, "--limit", "3")
        self.expect("the run", ran, 1, "", ending("LIMIT", 409, 3, shown="line 6, CC S", why=LIMIT))
        self.holds("three lines", self.trace, b"".join(self.wanted.splitlines(True)[:3]))
        source = self.folder / "one line"
        source.write_text(ONE_LINE)
        for limit, status, steps, end in [
            (9, 0, STEPS, ending("HALT", 401, 2, printed=1, shown="line 3, H")),
            (1, 1, STEPS[:1], ending("LIMIT", 401, 1, printed=1, shown="line 3, H", why=LIMIT)),
            (0, 1, [], ending("LIMIT", 400, 0, shown="line 2, START W", why=LIMIT)),
        ]:
            ran = program("run", source, "--trace", self.trace, "--limit", str(limit))
            self.expect(f"{limit} steps at most", ran, status, "\n" if steps else "", end)
            self.holds(f"{limit} steps at most: its lines", self.trace, "".join(steps))

    def traced(self, cells, steps, *words):
        """The trace of so many steps of a program at 600."""
        file = self.folder / "image"
        file.write_text(image(600, {600: cells}))
        program("run", file, "--trace", self.trace, "--limit", str(steps), *words)
        return self.trace.read_text()

    def test_each_kind_of_step_has_its_line(self):
        cards = self.folder / "cards"
        for cells, count, line in TRACED:
            cards.write_text("ABC\n" * count)
            self.same(f"{cells}, {count} cards", self.traced(cells, 1, "--cards", cards), line)

    def test_an_operation_of_a_feature_has_its_mnemonic_and_what_it_changes(self):
        for cells, line in TRACED_WITH_FEATURES:
            self.same(cells, self.traced(cells, 1, "--fit", "all"), line)

    def test_a_movement_that_waits_is_shown_once(self):
        self.same("five lines", self.traced(WAITING, 5), "".join(TRACE_OF_WAITING))

    def test_a_trace_that_cannot_be_written(self):
        for out in self.folder, "/dev/full", self.folder / "none" / "trace":
            ran = program("run", *SALES_CALL, "--trace", out, "--paper", "/dev/null")
            self.expect(f"{out}", ran, 1, "", f"ibm1401: cannot write {out}\n")

    def hold_alike(self, name, ran, traced):
        """A subtest: two runs ended and wrote alike."""
        self.expect(name, traced, ran.returncode, ran.stdout, ran.stderr)

    def test_a_deck_that_loads_itself(self):
        call = ["run", EXAMPLES / "listing.deck", "--load", "--switches", "A"]
        self.hold_alike("the run", program(*call), program(*call, "--trace", self.trace))
        self.same("it begins where the load key starts", self.trace.read_bytes().split(b"\t")[0], b"00001")

    def test_a_long_deck(self):
        source, deck, punched, plain = (self.folder / each for each in ("source", "deck", "punched", "plain"))
        source.write_text(LIST_AND_PUNCH)
        deck.write_text("".join(f"{number:04}\n" for number in range(700)))
        call = ["run", source, "--cards", deck, "--switches", "A", "--punch"]
        self.hold_alike("the run", program(*call, plain), program(*call, punched, "--trace", self.trace))
        self.holds("its cards", punched, plain.read_bytes())
        self.same("a line for each step", self.trace.read_bytes().count(b"\n"), 1 + 700 * 7)


class Decks(ProgramTest):
    """Decks, and the paper and the cards that are made of them."""

    def setUp(self):
        names = ("source", "deck", "punch", "paper", "trace")
        self.source, self.deck, self.punch, self.paper, self.trace = (self.folder / each for each in names)

    def test_more_cards_than_hopper_stacker_and_paper_hold(self):
        """What was punched is a deck again."""
        self.source.write_text(LIST_AND_PUNCH)
        cards, again = [f"{number:04}\n" for number in range(1_203)], self.folder / "again"
        self.deck.write_text("".join(f"{card[:-1]} AND MORE\n" for card in cards))
        words = ["--punch", self.punch, "--paper", self.paper, "--switches", "A"]
        for given in self.deck, again:
            ran = program("run", self.source, "--cards", given, *words)
            self.expect(given.name, ran, 0, "", ending("HALT", 433, 8_422, 1_203, 1_203, 1_203, DONE))
            self.holds(f"{given.name}: the paper", self.paper, paper_of("".join(cards)))
            self.holds(f"{given.name}: the cards", self.punch, "".join(cards))
            self.punch.rename(again)

    def test_the_last_card_and_the_limit(self):
        self.source.write_text(LIST_AND_PUNCH)
        self.deck.write_text("".join(f"{number:04} AND MORE\n" for number in range(1_203)))
        words, counts = ["run", self.source, "--cards", self.deck, "--paper", self.paper], (1_203, 1_203, 1_203)
        end = ending("READER", 407, 8_422, *counts, "line 3, NEXT R", f"{NO_CARD} (--switches A?)")
        self.expect("a deck that runs out", program(*words), 1, "", end)
        ran = program(*words, "--switches", "A", "--limit", "8421")
        self.expect("a limit one step too low", ran, 1, "", ending("LIMIT", 433, 8_421, *counts, DONE, LIMIT))
        ran = program(*words, "--switches", "A", "--limit", "8422")
        self.expect("a halt as the last step", ran, 0, "", ending("HALT", 433, 8_422, *counts, DONE))
        ran = program("run", self.source, "--limit", "0")
        end = ending("LIMIT", 400, 0, shown="line 2, START SW 1,101", why=LIMIT)
        self.expect("a limit of no step", ran, 1, "", end)

    def test_limits_next_to_the_halt_and_to_500_steps(self):
        """After 500 steps at most cards are fed, and lines and punched cards are taken."""
        self.source.write_text(LIST_AND_PUNCH)
        for limit, given, status, end in [
            (0, 3, 1, ending("LIMIT", 400, 0, shown="line 2, START SW 1,101", why=LIMIT)),
            (21, 3, 1, ending("LIMIT", 433, 21, 3, 3, 3, DONE, LIMIT)),
            (22, 3, 0, ending("HALT", 433, 22, 3, 3, 3, DONE)),
            (500, 71, 0, ending("HALT", 433, 498, 71, 71, 71, DONE)),
            (500, 72, 1, ending("LIMIT", 415, 500, 72, 71, 71, "line 5, MLC 4,104", LIMIT)),
            (501, 72, 1, ending("LIMIT", 422, 501, 72, 71, 71, "line 6, W", LIMIT)),
            (10, 0, 1, ending("READER", 407, 1, shown="line 3, NEXT R", why=NO_CARD)),
        ]:
            self.deck.write_text("".join(f"{number:04}\n" for number in range(given)))
            call = ["run", self.source, "--cards", self.deck, "--paper", self.paper, "--switches", "A"]
            ran = program(*call, "--limit", str(limit))
            self.expect(f"{given} cards, {limit} steps at most", ran, status, "", end)

    def test_each_file_and_number_named(self):
        self.source.write_text(SWITCHED)
        self.deck.write_text("CARD\n")
        names = ["--cards", self.deck, self.source, "--punch", self.punch, "--paper", self.paper, "--trace", self.trace]
        for limit, switches, status, end in [
            ("7", "GA", 1, ending("LIMIT", 439, 7, 1, 1, 1, "line 15, DONE H *-3", LIMIT)),
            ("8", "AG", 0, ending("HALT", 439, 8, 1, 1, 1, "line 15, DONE H *-3")),
            ("8", "G", 0, ending("HALT", 435, 8, 1, 1, 1, "line 14, H *-3")),
            ("8", "A", 0, ending("HALT", 410, 3, shown="line 8, WRONG H *-3")),
            ("8", "GAB", 0, ending("HALT", 410, 2, shown="line 8, WRONG H *-3")),
        ]:
            name = f"--limit {limit} --switches {switches}"
            ran = program("run", *names, "--size", "1400", "--limit", limit, "--switches", switches)
            self.expect(name, ran, status, "", end)
            made = "" if "410" in end else "CARD\n"
            self.holds(f"{name}: the cards", self.punch, made)
            self.holds(f"{name}: the paper", self.paper, made)
            steps = self.trace.read_bytes().count(b"\n")
            self.check(f"{name}: the trace", "" if f" after {steps} steps;" in end else f"it has {steps} lines")

    def test_nothing_named(self):
        self.source.write_text("               END  3999\n")
        end = ending("NOMARK", 3999, 0, why="no word mark at 3999")
        self.expect("the last place where no size is named", program("run", self.source), 1, "", end)
        self.source.write_text(ROUND)
        end = ending("LIMIT", 400, 1_000_000_000, shown="line 2, START B START", why=LIMIT)
        ran = program("run", self.source, timeout=5 * SECONDS)
        self.expect("1,000,000,000 steps where no limit is named", ran, 1, "", end)

    def test_a_place_of_five_digits(self):
        self.source.write_text("IMAGE2 16000\n15999 01 ~N\nEND 15999\n")
        end = ending("LIMIT", 15999, 0, shown="NOP", why=LIMIT)
        self.expect("it", program("run", self.source, "--limit", "0"), 1, "", end)

    def test_lines_of_decks(self):
        """Short and long lines, small letters, which are reported once, and the ends of lines."""
        self.source.write_text(LIST_AND_PUNCH)
        small = f"ibm1401: {self.deck}: small letters are read as capitals\n"
        for text, wanted, letters in [
            ("ab\r\nAB12\n\nlast", "AB\nAB12\n\nLAST\n", small),
            ("\n" * 600 + "z", "\n" * 600 + "Z\n", small),
            ("A" * 80 + "\n" + "B" * 80, "AAAA\nBBBB\n", ""),
            ("A\r\nB\r\n", "A\nB\n", ""),
            ("A\r\nB", "A\nB\n", ""),
            ("A", "A\n", ""),
            ("a b\r\n\nLAST  ", "A B\n\nLAST\n", small),
            ("\n\nz\n", "\n\nZ\n", small),
        ]:
            self.deck.write_text(text, newline="")
            name, count = f"{text[-20:]!r}", wanted.count("\n")
            ran = program("run", self.source, "--cards", self.deck, "--punch", self.punch, "--switches", "A")
            end = ending("HALT", 433, 7 * count + 1, count, count, count, DONE)
            self.expect(name, ran, 0, paper_of(wanted), letters + end)
            self.holds(f"{name}: punched", self.punch, wanted)

    def test_lines_at_their_places_of_the_form(self):
        self.source.write_text("""\
               ORG  400
     START     CC   1
               CC   I
               MLC  ONE,201
               W
               MLC  TWO,201
               W
               CC   1
               CC   @
               W
               W
     DONE      H    *-3
     ONE       DCW  @1@
     TWO       DCW  @2@
               END  START
""")
        paper = "\n" * 3 + "1\n" + "\n" * 55 + "2\n" + "\f" + "\n" * 62 + "2\n2\n"
        end = ending("HALT", 426, 11, 0, 4, shown="line 12, DONE H *-3")
        self.expect("the paper", program("run", self.source), 0, paper, end)

    def test_lines_at_both_ends_of_a_form(self):
        """To line 63, three down to 66 and one to the next form, twice: to line 1 of form 3. Then to its line 66."""
        next_form = "               CC   @\n               CC   L\n               CC   J\n"
        self.source.write_text(f"""\
               ORG  201
     NUMBER    DCW  @1@
               ORG  400
     START     CC   K
               W
               A    NUMBER
               W
{next_form * 2}\
               A    NUMBER
               W
               CC   @
               CC   L
               A    NUMBER
               W
     DONE      H    *-3
               NOP
               END  START
""")
        paper = "\n\n1\n2\n" + "\f\f4\n" + "\n" * 64 + "8\n"
        end = ending("HALT", 434, 17, 0, 4, shown="line 20, DONE H *-3")
        self.expect("the paper", program("run", self.source), 0, paper, end)


class Stops(ProgramTest):
    """What is said of each stop of the machine: the statement, or the instruction, and why."""

    def test_each_stop(self):
        source = self.folder / "source"
        for lines, address, stop, shown, why in [
            (["     PRINT     MLC  10,210"], 400, "ADDRESS", "line 2, PRINT MLC 10,210",
             "no word mark from 010 down to 000 in the A field, nor from 210 down to 200 in the B field"),
            (["               MLC  10,10"], 400, "ADDRESS", "line 2, MLC 10,10", "no word mark from 010 down to 000"),
            (["               LCA  10,500"], 400, "ADDRESS", "line 2, LCA 10,500",
             "no word mark from 010 down to 000 in the A field"),
            (["               DCW  @.1@"], 400, "LENGTH", "line 2, DCW @.1@",
             "the operation . has no instruction of 2 characters"),
            (["               A    10,20", "               DC   @5@"], 400, "LENGTH", "A 010,020,5",
             "the operation A has no instruction of 8 or more characters, and no word mark from 401 to 407 ends it"),
            (["               DCW  @X@"], 400, "NOTFITTED", "line 2, DCW @X@", "the operation X isn't fitted"),
            (["               DCW  @$@"], 400, "OPCODE", "line 2, DCW @$@", "the character $ is no operation"),
            (["               CC   5"], 400, "CARRIAGE", "line 2, CC 5", "the carriage tape has no hole in channel 5"),
            (["               DC   @A@"], 400, "NOMARK", "", "no word mark at 400"),
            (["               B    3999", "               H    *-3"], 3999, "NOMARK", "", "no word mark at 3999"),
        ]:
            text = ["               ORG  400", *lines, "               DCW  @A@", "               END  400\n"]
            source.write_text("\n".join(text))
            steps = 0 if address == 400 else 1
            ran = program("run", source)
            self.expect(f"{stop}: {why}", ran, 1, "", ending(stop, address, steps, shown=shown, why=why))

    def test_a_changed_instruction_is_disassembled(self):
        source = self.folder / "source"
        source.write_text("               ORG  400\n     START     MLC  NEW,CHANGE+3\n     CHANGE    B    403\n"
                          "     NEW       DCW  @9@\n               END  START\n")
        ran = program("run", source, "--limit", "1")
        self.expect("it", ran, 1, "", ending("LIMIT", 407, 1, shown="B 409", why=LIMIT))


def on_a_terminal(words):
    """What a run writes to a terminal that is its standard error, until it ends or shows how far it is."""
    ours, theirs = pty.openpty()
    written = b""
    ran = subprocess.Popen([PROGRAM, "run", *words], stdin=subprocess.DEVNULL, stdout=subprocess.DEVNULL, stderr=theirs)

    def is_over():
        nonlocal written
        while select.select([ours], [], [], 0)[0]:
            written += os.read(ours, 4_096)
        return b"\x1b[K" in written or (ran.poll() is not None and not select.select([ours], [], [], 0)[0])

    try:
        wait_until(is_over)
    finally:
        ran.kill()
        ran.wait()
        os.close(theirs)
        os.close(ours)
    return written


class WhileItRuns(ProgramTest):
    """What is seen of a program that runs."""

    def test_a_pipe_sees_the_paper_at_once_and_ends_the_run(self):
        source = self.folder / "source"
        source.write_text(LINES_WITHOUT_END)
        call, pipe = [PROGRAM, "run", source, "--limit", "4000000000"], subprocess.PIPE
        with subprocess.Popen(call, stdin=subprocess.DEVNULL, stdout=pipe, stderr=pipe) as ran:
            first = ran.stdout.read(1_000)
            goes_on = ran.poll() is None
            ran.stdout.close()
            error, status = ran.stderr.read(), ran.wait(SECONDS)
        self.same("the paper", first.strip(b"\n\f"), b"")
        self.check("it comes while the program runs", "" if goes_on else "it had ended")
        self.same("the run ends with the pipe", (status, error), (1, b"ibm1401: cannot write\n"))

    def test_how_far_it_is_on_a_terminal(self):
        ending = SALES_ENDING.replace("\n", "\r\n").encode()
        # On a host with much to do it may take more than a second.
        for _ in range(MOST_TRIALS):
            shown = on_a_terminal(SALES_CALL)
            if shown == ending:
                break
        self.same("a short run", shown, ending)
        source = self.folder / "source"
        source.write_text(ROUND)
        shown = on_a_terminal([source, "--limit", "4294967295"])
        good = re.match(rb"\r\d+ steps, 0 cards left, 0 lines\x1b\[K", shown)
        self.check("a run of more than a second", "" if good else f"it shows {shown!r}")


if __name__ == "__main__":
    unittest.main()
