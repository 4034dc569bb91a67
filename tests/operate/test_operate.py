"""A person's console, `operate`: what OPERATE.md shows, words and lines, files, statuses, and what is recorded."""
import os
import re
import resource
import shutil
import signal
import subprocess
import time
import unittest

from tests.chains import SOURCE_FORTRAN, SOURCE_SIMH
from tests.support import EXAMPLES, PROGRAM, SECONDS, TESTS, TOP, ProgramTest, program, run, shell

PAGE = TOP / "docs/OPERATE.md"
TUTORIAL = TOP / "docs/TUTORIAL.md"
LESSONS = TESTS / "sittings/lessons.txt"
PROMPT = "1401> "
# The words of a line, and how many letters of each suffice.
SHORTEST = {
    "examine": 1, "list": 1, "print": 1, "source": 2, "registers": 1, "cards": 2, "paper": 2, "symbols": 2,
    "evaluate": 2, "breaks": 6, "why": 3, "journal": 1, "assert": 2, "help": 1, "deposit": 1, "set": 3, "mark": 1,
    "unmark": 3, "start": 3, "switch": 2, "feed": 1, "deck": 3, "load": 2, "step": 1, "continue": 1, "until": 1,
    "go": 1, "undo": 3, "back": 2, "restart": 5, "restore": 5, "save": 2, "break": 1, "watch": 1, "delete": 3, "do": 2,
    "transcript": 1, "quit": 1,
}
SALES = ("operate", "sales.source", "--cards", "sales.cards", "--switches", "A")
GREETING = ("sales.cards: 3 cards; hopper: 3\n"
            "sales.source: 4000 places; next is 0400 (line 3, START SW 1); help lists the words\n")
BARE = "4000 places; next is 0000; help lists the words\n"
# A script that goes back again and again, and is long enough to be killed in the middle of.
RESTLESS = "".join(
    f"deposit 700 {number:05}\nuntil NEXT\nstep 2\nback 1\nundo\nset TOTAL = {number}\nback 1\nrestart\n"
    for number in range(40))

# A program that adds what cards have in columns 1 to 6.
TOTALS = """\
               ORG  400
     START     SW   1
               CS   332
     NEXT      R
               A    6,TOTAL            COLUMNS 1 TO 6
               BLC  DONE
               B    NEXT
     DONE      H    *-3
     HEAD      DCW  @SALES OF THE WEEK@
     TOTAL     DCW  00000000
     AREA      EQU  201
               END  START
"""


def small_files():
    """Has a process write no file of more than a kilobyte."""
    resource.setrlimit(resource.RLIMIT_FSIZE, (1024, 1024))


def sessions(page):
    """The sessions of a page, or of a text of sittings: the commands of each, and what they show."""
    text = page.read_text()
    pages = re.findall(r"```console\n(.*?)```", text, re.DOTALL)
    for block in pages or re.split("^== .*\n", text, flags=re.MULTILINE)[1:]:
        lines = [line for line in block.splitlines(keepends=True) if line != "\n" and not line.startswith("# ")]
        commands = [line[2:].strip() for line in lines if line.startswith("$ ")]
        yield commands, "".join(line for line in lines if not line.startswith("$ "))


def typed_in(shown):
    """The lines that were typed in a session."""
    return "".join(f"{line.removeprefix(PROMPT)}\n" for line in shown.splitlines() if line.startswith(PROMPT.strip()))


def recorded(text):
    """The commands of a journal, and their answers as a console writes them."""
    rows = [line.split("\t") for line in text.splitlines()[1:]]
    return [row[2] for row in rows], [row[3] for row in rows]


class Operated(ProgramTest):
    """A test in a folder with the examples."""

    @property
    def desk(self):
        """The folder."""
        made = self.folder / "desk"
        if not made.exists():
            shutil.copytree(EXAMPLES, made)
            (made / "examples").symlink_to(".")
            (made / "ibm1401").symlink_to(PROGRAM)
        return made

    def operate(self, *words, lines="", **how):
        """Runs it there."""
        return program(*words, lines=lines.encode() if isinstance(lines, str) else lines, cwd=self.desk, **how)

    def answers(self, name, lines, *answers, words=("operate",), greeting=BARE, status=0):
        """A subtest: lines are answered so."""
        self.expect(name, self.operate(*words, lines=lines), status, greeting + "".join(answers))


class Pages(Operated):
    """What the page shows."""

    def test_each_session(self):
        """Those of OPERATE, and that of TUTORIAL."""
        found = [*sessions(PAGE), *sessions(TUTORIAL)]
        self.assertEqual(4, len(found))
        for commands, shown in found:
            *before, last = commands
            for command in before:
                run(["bash", "-c", command], cwd=self.desk)
            if " < " in last:
                self.same(last, run(["bash", "-c", last], cwd=self.desk).stdout, shown)
            else:
                ran = run(["bash", "-c", f"{last} --echo"], typed_in(shown).encode(), cwd=self.desk)
                has_faults = "\n? " in shown
                self.expect(last, ran, int(has_faults), shown)

    def test_what_is_recorded_is_answered_the_same_by_a_console(self):
        """The journals of these sessions and of lessons: `console` replies with the answers that they have."""
        for number, (commands, shown) in enumerate([*sessions(PAGE), *sessions(LESSONS)]):
            *before, last = commands
            for command in before:
                run(["bash", "-c", command], cwd=self.desk)
            lines = typed_in(shown).removesuffix("quit\n") + f"save {number}.saved\n"
            call = re.sub(r" < .*| --journal \S+", "", last)
            run(["bash", "-c", call], lines.encode(), cwd=self.desk)
            saved = (self.desk / f"{number}.saved").read_text()
            said, answered = recorded(saved)
            replied = program("console", lines="".join(f"{line}\n" for line in said).encode())
            self.same(f"{last}: each reply", replied.stdout.decode().splitlines(), answered)
            checked = program("journal", "--check", self.desk / f"{number}.saved")
            self.expect(f"{last}: its journal", checked, 0, f"{len(said)} entries\n")


class Lines(Operated):
    """Words, and the bytes of lines."""

    def test_each_beginning_of_each_word(self):
        """It means the word from its shortest form on, as `help` shows; a shorter one means another word or none."""
        meant = {word: self.operate("operate", lines=f"help {word}\n").stdout for word in SHORTEST}
        self.same("each word has a help of its own", len({*meant.values()}), len(SHORTEST))
        for word, shortest in SHORTEST.items():
            for count in range(1, len(word) + 1):
                for letters in word[:count], word[:count].upper():
                    shown = self.operate("operate", lines=f"help {letters}\n").stdout
                    self.same(letters, shown == meant[word], count >= shortest)

    def test_the_page_has_each_word_and_its_shortest_form(self):
        text = PAGE.read_text()
        for word, shortest in SHORTEST.items():
            self.assertRegex(text, f"`{word[:shortest]}[` ]", word)

    def test_how_long_a_line_may_be(self):
        line = "evaluate 400".ljust(200)
        self.answers("200 bytes", f"{line}\n", "400, spelled 400\n")
        self.answers("200 bytes and a carriage return", f"{line}\r\n", "400, spelled 400\n")
        self.expect("201 bytes", self.operate("operate", lines=f"{line} \n"), 1, BARE + "? ...")

    def test_bytes_that_no_line_has(self):
        for name, byte in ("a tab", b"\t"), ("byte 255", b"\xff"), ("a NUL", b"\0"):
            ran = self.operate("operate", lines=b"deposit 700 A" + byte + b"\nevaluate 400\n")
            self.expect(name, ran, 1, BARE + "? ...")
            self.check(f"{name}: the next line is answered", "" if ran.stdout.endswith(b"400, spelled 400\n") else ran)

    def test_numbers_that_are_too_long(self):
        for line in "continue 4294967296", "step 1000000000", "undo 0000000001", "examine 9999999999":
            word = line.split()[1]
            self.answers(line, f"{line}\n", f"? {word} has more than nine digits\n", status=1)

    def test_words_that_may_be_meant(self):
        for word, meant in ("res", "restart or restore"), ("wh", "why"), ("stpe", "step"), ("unti!", "until"):
            self.answers(word, f"{word}\n", f"? {word} is no word here; did you mean {meant}?\n", status=1)
        self.answers("none", "zzzzzz\n", "? zzzzzz is no word here\n", status=1)

    def test_help_has_the_shortest_form_the_usage_and_the_meaning(self):
        row = f"{'r':<8}{'registers':<54}  registers, indicators, switches and devices in words\n"
        self.answers("registers", "help registers\n", row)

    def test_help_says_what_enter_does(self):
        ran = self.operate("operate", lines="help\n")
        self.check("its last line", "" if ran.stdout.decode().splitlines()[-1].startswith("An empty line") else ran)

    def test_what_says_nothing(self):
        lines = "\n  \n# step\n#\nevaluate 400"
        self.answers("empty lines, remarks, the last line without an end", lines, "400, spelled 400\n")
        self.answers("nothing at all", "")
        self.answers("quit, and what comes after it", "quit\nstep\n")


class Names(Operated):
    """Places by their names, and what is put there."""

    def totals(self, lines, status=0):
        """What lines are answered at the program of totals."""
        (self.desk / "totals").write_text(TOTALS)
        ran = self.operate("operate", "totals", lines="".join(f"{line}\n" for line in lines))
        self.same("its status", ran.returncode, status)
        return ran.stdout.decode().splitlines()[1:]

    def test_addresses(self):
        places = {"400": "400", "TOTAL": "453", ":5": "409", "next+1": "409", "X1": "089", "AREA+X1": "201", "$I": "400",
                  "TOTAL-AREA": None}
        for name, address in places.items():
            shown = self.totals([f"evaluate {name}"], int(address is None))
            if address is None:
                self.check(name, "" if shown[0].startswith("? ") else shown)
            else:
                self.same(name, shown, [f"{int(address)}, spelled {address}"])

    def test_ranges(self):
        ranges = {"HEAD": "00429-00445", "400..410": "00400-00410", ":5/7": "00409-00415", "print": "00201-00332",
                  "400-402": "00400-00402", "read": "00001-00080", "(TOTAL)": "00446-00453"}
        for name, places in ranges.items():
            shown = self.totals([f"watch {name}"])
            self.check(name, "" if f", {places}: " in shown[0] or f", {places}:" in shown[0] else shown)

    def test_what_is_put(self):
        shown = self.totals(["deposit 600 = A 6,TOTAL", "deposit 446 ~00000000", "set TOTAL = -500", "set TOTAL = +7",
                             "set TOTAL = -0", "set TOTAL = +0", "set TOTAL = 7", "set TOTAL = @HI@",
                             "unmark TOTAL-7", "mark TOTAL-7", "list :5/7", "deposit 409 ~A006452", "list 409/7"])
        self.same("each answer", shown, [
            "00600  ~A006453", "00446  ~00000000", "TOTAL  00446-00453  0000050!  = -500",
            "TOTAL  00446-00453  00000007  = 7", "TOTAL  00446-00453  0000000!  = -0",
            "TOTAL  00446-00453  00000000  = 0", "TOTAL  00446-00453  00000007  = 7",
            "TOTAL  00446-00453  HI      ", "00446  H", "00446  ~H",
            " 00409 A006453          A    6,TOTAL              line 5", "00409  ~A006452",
            " 00409 A006452          A    006,452"])

    def test_a_label_is_listed_from_its_first_place_on(self):
        """Its line says what made it, or that its cells are others now."""
        for lines, row in (
            (["list TOTAL"], f" 00446 {'00000000':<10}TOTAL  DCW  {'00000000':<20} line 10"),
            (["set TOTAL = 5", "list TOTAL"], f" 00446 {'00000005':<10}TOTAL  DATA {'':<20} line 10"),
            (["list HEAD"], f" 00429 {'SALES OF':<10}HEAD   DCW  @SALES OF THE WEEK@  line 9"),
        ):
            shown = self.totals(lines)
            self.check(lines[-1], "" if row in shown else shown)

    def test_an_index_register_is_three_places(self):
        """By its name, with or without a word mark."""
        lines = ("deposit 87 012", "print X1", "assert X1 = 12", "set X1 = 7", "watch X1", "mark 88", "print X1",
                 "evaluate X1")
        shown = self.totals(lines)
        self.same("each answer", shown, [
            "00087  012", "X1  00087-00089  012  = 12", "X1  00087-00089  007  = 7", "watch 1, X1, 00087-00089: 007",
            "00088  ~0", "X1  00087-00089  007  = 7", "89, spelled 089"])
        shown = self.totals(["set X1 = 0", "deposit 600 ~M012089~N~.~.", "deposit 12 ~5", "break 607 if X1 = 5",
                             "go 600"])
        self.check("a condition on it", "" if "break 1, X1 = 5, after 1 step" in shown else shown)

    def test_a_field_that_is_no_number_meets_no_condition_with_one(self):
        for condition in "500 = 102", "500 <> 102", "500 < 1000", "500 >= 0":
            shown = self.totals(["deposit 498 ~A B", f"assert {condition}"], 1)
            self.same(condition, shown, ["00498  ~A B", f"? not so: {condition}; 00498-00500  A B"])
        self.same("a text", self.totals(["deposit 498 ~A B", "assert 500 = @A B@"]), ["00498  ~A B"])
        shown = self.totals(["deposit 498 ~A B", "deposit 600 ~N~N~.~.", "break 601 if 500 >= 0", "go 600"])
        self.check("a break", "" if "HALT at 0602 (H) after 3 steps" in shown else shown)

    def test_breaks_where_no_instruction_begins_or_another_break_is(self):
        shown = self.totals(["break NEXT+1", "break NEXT", "break NEXT", "break NEXT if 6 = 5"])
        self.same("each answer", shown, [
            "break 1 at 0409 (line 5, A 6,TOTAL)", "break 2 at 0408 (line 4, NEXT R)",
            "break 3 at 0408 (line 4, NEXT R); break 2 is there too",
            "break 4 at 0408 (line 4, NEXT R) if 6 = 5; break 2 is there too; break 3 is there too"])
        self.same("inside an instruction", self.totals(["break NEXT+2"]),
                  ["break 1 at 0410; no instruction begins there now"])

    def test_breaks_and_watches_set_counted_and_taken_away(self):
        lines = ["deposit 600 ~A705704~B600~.", "deposit 703 ~00~1", "break 600", "watch 704", "watch paper", "go 600",
                 "breaks", "delete 1 3", "breaks", "break 607", "delete 7", "delete", "breaks", "break 607"]
        shown = self.totals(lines, 1)
        self.same("each answer", shown, [
            "00600  ~A705704~B600~.", "00703  ~00~1", "break 1 at 0600 (A 705,704)", "watch 2, 704, 00703-00704: ~00",
            "watch 3, a printed line", "watch 2, 704: ~00 -> ~01 after 1 step", "next is 0607 (B 600)",
            "1  break at 0600, never met", "2  watch 704, met once", "3  watch a printed line, never met",
            "2  watch 704, met once", "break 4 at 0607 (B 600)", "? no break and no watch has the number 7",
            "no break is set, and no watch", "break 1 at 0607 (B 600)"])

    def test_an_instruction_that_is_too_long(self):
        shown = self.totals(["deposit 600 ~A0000000000", "go 600"])
        reason = "A has no instruction of 8 or more characters; no word mark from 601 to 607 ends this one"
        self.check("it", "" if reason in shown[1] else shown)

    def test_faults(self):
        """Each is said, and has changed nothing."""
        faults = {
            "deposit TOTLA A": "TOTLA is the label of no line; did you mean TOTAL?",
            "start FINISH": "FINISH is the label of no line",
            "mark :1+3600": "place 4000 isn't in core, which has 4000 places",
            "deposit 3999 AB": "place 4000 isn't in core, which has 4000 places",
            "set 6 = 1": "no word mark from 006 down to 000: no field ends at 006",
            "deposit 600 = A +5,TOTAL":
                "a literal has no place here: deposit the constant first, and name its place",
            "deposit 600 = ORG 700": "ORG 700: it makes no cells",
            "deposit 600 = MLL 1,2": "MLL 1,2: MLL isn't an operation; did you mean MLC?",
        }
        before = self.totals(["journal 99"])
        for line, fault in faults.items():
            self.same(line, self.totals([line, "journal 99"], 1), [f"? {fault}", *before])


class Stops(Operated):
    """How many breaks and watches there may be."""

    def faults(self, lines):
        """The faults of these lines."""
        ran = self.operate("operate", lines=lines)
        return [line for line in ran.stdout.decode().splitlines() if line.startswith("? ")]

    def test_at_most_a_hundred_of_each(self):
        breaks, watches = "break 400\n" * 100, "watch reader\n" * 100
        self.same("a hundred of each", self.faults(breaks + watches), [])
        for kind, line in {"breaks": "break 400\n", "watches": "watch reader\n"}.items():
            fault = f"? at most 100 {kind} are set at a time"
            lines = breaks + watches
            self.same(f"{kind}: one more", self.faults(lines + line), [fault])
            self.same(f"{kind}: one in place of another", self.faults(lines + "delete 7 150\n" + line), [])
            self.same(f"{kind}: two in place of one", self.faults(lines + "delete 7 150\n" + line * 2), [fault])
            self.same(f"{kind}: after all are gone", self.faults(lines + "delete\n" + lines + line), [fault])


class Files(Operated):
    """The files that lines and the command line name."""

    def test_do(self):
        (self.desk / "lines").write_text("evaluate 400\nevaluate 401\n")
        (self.desk / "faulty").write_text("evaluate 402\nstpe\nevaluate 403\n")
        (self.desk / "outer").write_text("do lines\nevaluate 404\n")
        (self.desk / "endless").write_text("do endless\n")
        says = "{0}, spelled {0}\n".format
        self.answers("--do", "evaluate 405\n", says(400), says(401), says(405), words=("operate", "--do", "lines"))
        self.answers("do", "do lines\n", says(400), says(401))
        self.answers("one in another", "do outer\n", says(400), says(401), says(404))
        ran = self.operate("operate", lines="do faulty\nevaluate 405\n")
        self.expect("up to the first fault", ran, 1,
                    BARE + says(402) + "? faulty: line 2: stpe is no word here; did you mean step?\n" + says(405))
        ran = self.operate("operate", lines="do endless\nstpe\n")
        self.expect("ten deep", ran, 1, BARE + "? endless: line 1: do goes ten deep\n"
                    + "? stpe is no word here; did you mean step?\n")
        ran = self.operate("operate", "--do", "nothing")
        self.expect("no file of lines", ran, 1, "", "ibm1401: nothing: no such file\n")

    def test_files_that_are_there_are_not_written_over(self):
        for line in "save", "transcript":
            kept = self.desk / "sales.paper"
            before = kept.read_bytes()
            ran = self.operate("operate", lines=f"{line} sales.paper\n")
            self.expect(line, ran, 1, BARE + "? sales.paper is there already, and isn't written over\n")
            self.holds(f"{line}: the file", kept, before)

    def test_files_that_cannot_be_used(self):
        (self.desk / "folder").mkdir()
        (self.desk / "locked").write_text("step\n")
        (self.desk / "locked").chmod(0)
        os.mkfifo(self.desk / "pipe")
        faults = {"nothing": "can't be read", "folder": "isn't a regular file", "pipe": "isn't a regular file",
                  "/dev/tty": "isn't a regular file"}
        faults |= {"locked": "can't be read"} if self.is_bound() else {}
        for line in "do", "deck", "restore":
            for name, fault in faults.items():
                ran = self.operate("operate", lines=f"{line} {name}\n")
                self.expect(f"{line} {name}", ran, 1, BARE + f"? {name} {fault}\n")
        for line in "save", "transcript":
            ran = self.operate("operate", lines=f"{line} nothing/new\n")
            self.expect(f"{line} in no folder", ran, 1, BARE + "? nothing/new can't be written\n")
        (self.desk / "no.deck").write_text("CARD\n" + "X" * 81 + "\n")
        self.expect("a deck with a line too long", self.operate("operate", lines="deck no.deck\n"), 1,
                    BARE + "? no.deck: line 2 is wrong\n")
        self.expect("no journal", self.operate("operate", lines="restore sales.cards\n"), 1,
                    BARE + "? sales.cards: line 1 is wrong\n")

    def test_first_lines_that_cannot_be_read_to_their_end(self):
        """They are refused as `do` refuses them, before the greeting."""
        os.mkfifo(self.desk / "pipe")
        (self.desk / "folder").mkdir()
        faults = {"pipe": "is not a regular file", "/dev/zero": "is not a regular file", "folder": "is a folder"}
        for name, fault in faults.items():
            ran = self.operate("operate", "--do", name)
            self.expect(f"--do {name}", ran, 1, "", f"ibm1401: {name}: {fault}\n")

    def is_bound(self):
        """Whether permissions hold for whoever runs the tests."""
        try:
            (self.desk / "locked").read_text()
        except PermissionError:
            return True
        return False

    def test_a_transcript(self):
        lines = "transcript t\nevaluate 400\nstpe\ntranscript off\nevaluate 401\n"
        self.same("its status", self.operate("operate", lines=lines).returncode, 1)
        kept = (self.desk / "t").read_text()
        self.same("what it has", "1401> evaluate 400\n400, spelled 400\n1401> stpe\n? stpe " in kept, True)
        self.same("what it hasn't", "401," in kept, False)

    def test_a_transcript_that_breaks_off(self):
        """It is reported at once, and by the status; the lines go on."""
        lines = "transcript t\n" + "evaluate 400\n" * 100
        shown = BARE + "400, spelled 400\n" * 100
        self.expect("a whole one", self.operate("operate", lines=lines), 0, shown)
        (self.desk / "t").unlink()
        ran = self.operate("operate", lines=lines, preexec_fn=small_files)
        said = "ibm1401: the transcript cannot be written, and ends here\nibm1401: a transcript is not whole\n"
        self.expect("one on a full disk", ran, 1, shown, said)
        (self.desk / "t").unlink()
        ran = self.operate("operate", lines=lines + "transcript off\nstpe\n", preexec_fn=small_files)
        self.same("a fault as well: its status", ran.returncode, 1)
        self.same("a fault as well: what is said", ran.stderr.decode(), said.splitlines(keepends=True)[0])

    def test_an_echo_shows_control_characters_as_a_terminal_does(self):
        lines = "# \x1b[31m\x07\x7f\ttab, é\n".encode()
        shown = BARE + PROMPT + "# ^[[31m^G^?\ttab, é\n? {}byte 27 in column 3 is no character\n"
        (self.desk / "lines").write_bytes(lines)
        self.expect("typed", self.operate("operate", "--echo", lines=lines), 1, shown.format(""))
        ran = self.operate("operate", "--echo", "--do", "lines")
        self.expect("of a file", ran, 1, shown.format("lines: line 1: "))

    def test_a_transcript_of_the_lines_of_a_file(self):
        """Each has its answer after it, as at a terminal."""
        (self.desk / "lines").write_text("evaluate 400\nstep\nevaluate 401\n")
        self.operate("operate", lines="transcript t\ndo lines\ntranscript off\n")
        shown = (self.desk / "t").read_text()
        asked = [line for line in shown.splitlines() if line.startswith(PROMPT)]
        self.same("its lines", asked, [PROMPT + line for line in (
            "do lines", "evaluate 400", "step", "evaluate 401", "transcript off")])
        answers = {"evaluate 400": "400, spelled 400", "step": "NOMARK", "evaluate 401": "401, spelled 401"}
        for line, answer in answers.items():
            self.check(line, "" if f"{PROMPT}{line}\n{answer}" in shown else shown)

    def test_a_saved_journal_is_restored(self):
        saved = self.operate(*SALES, lines="until NEXT\nset TOTAL = -500\nsave kept\n")
        self.same("it is saved", saved.returncode, 0)
        self.same("it is legal", program("journal", "--check", self.desk / "kept").stdout, b"10 entries\n")
        ran = self.operate("operate", lines="restore kept\nprint 496\n")
        self.check("the field", "" if b"0000050!  = -500\n" in ran.stdout else ran)

    def test_a_deck_beyond_the_hopper(self):
        """A deck of 1,200 cards: the lines that are shown are those of `run`, but for blank ones."""
        deck = self.desk / "long.cards"
        deck.write_text("".join(f"CARD {number}\n" for number in range(1200)))
        paper = self.operate("run", "card_listing.source", "--cards", "long.cards", "--switches", "A").stdout.decode()
        call = ("operate", "card_listing.source", "--cards", "long.cards", "--switches", "A")
        shown = self.operate(*call, lines="continue\n").stdout.decode()
        lines = [line.split("|", 1)[1] for line in shown.splitlines() if re.match(r" +\d+/\d\d \|", line)]
        wanted = [line.rstrip() for line in paper.replace("\f", "").splitlines() if line.strip()]
        self.same("each line", [line for line in lines if line], wanted)


    def test_the_step_that_fills_the_paper_is_the_last_before_its_lines_are_taken(self):
        """Of 1,000 steps every other prints a line, and a form has 66."""
        lines = "deposit 500 ~2~B500~N\nstart 500\ncontinue 1000\n"
        paper = "".join(f"{1 + line // 66:>4}/{1 + line % 66:02} |\n" for line in range(500))
        ran = self.operate("operate", "--journal", "kept", lines=lines)
        self.expect("it", ran, 0, BARE + "00500  ~2~B500~N\nnext is 0500 (W)\n" + paper + "next is 0500 (W)\n")
        said, _ = recorded((self.desk / "kept").read_text())
        wanted = ["DEPOSIT 0500 ~2~B500~N", "START 0500", "RUN 999", *["LINE"] * 500, "RUN 1"]
        self.same("its commands", said, wanted)


class CommandLine(Operated):
    """What the command line may ask for, and what it is refused."""

    def test_refusals(self):
        for words, error in (
            (["--load"], "the following required arguments were not provided:\n  <FILE>"),
            (["--sync"], "the following required arguments were not provided:\n  --journal <NEW>"),
        ):
            ran = self.operate("operate", *words)
            self.same(" ".join(words), (ran.returncode, ran.stdout), (2, b""))
            self.check(" ".join(words) + ": its error", "" if error in ran.stderr.decode() else ran.stderr)
        for words in "--journal new", "--sync", "--load", "--cards sales.cards", "--switches A", "--size 8000":
            ran = self.operate("operate", "--resume", "old", *words.split(), "sales.source")
            self.same(f"{words} with --resume", (ran.returncode, ran.stdout), (2, b""))
        ran = self.operate("operate", "--switches", "AH")
        self.expect("no switch", ran, 2, "", "error: the switches are letters from A to G\n...")
        for words in ["--size", "4001"], ["sales.source", "--size", "5000"], ["--resume", "old", "--size", "5000"]:
            ran = self.operate("operate", *words)
            self.same(f"{words}: no output", (ran.returncode == 0, ran.stdout), (False, b""))
        self.expect("no size", self.operate("operate", "--size", "5000"), 1, "",
                    "ibm1401: size refused: core storage has 1400, 2000, 4000, 8000, 12000 or 16000 places\n")
        self.same("no new file", sorted(each.name for each in self.desk.glob("new*")), [])

    def test_a_file_that_is_not_read(self):
        for words, error in (
            (["nothing"], "nothing: no such file"),
            (["."], ".: is a folder"),
            (["sales.source", "--cards", "nothing"], "nothing: no such file"),
            (["--load", "nothing"], "nothing: no such file"),
            (["--resume", "nothing"], "nothing: no such file"),
            (["--resume", "sales.cards"], "sales.cards: line 1: 2 HEADER"),
        ):
            ran = self.operate("operate", *words)
            self.same(" ".join(words), (ran.returncode, ran.stdout), (1, b""))
            self.check(" ".join(words) + ": its error", "" if error in ran.stderr.decode() else ran.stderr)
        self.expect("a journal that is there", self.operate("operate", "--journal", "sales.cards"), 1, "",
                    "ibm1401: sales.cards: already exists\n")

    def test_a_faulty_source_is_reported_as_run_reports_it(self):
        (self.desk / "faulty").write_text("               BOO\n               END  333\n")
        wanted = self.operate("run", "faulty").stderr
        self.expect("it", self.operate("operate", "faulty"), 1, "", wanted)

    def test_statuses(self):
        self.same("quit", self.operate("operate", lines="quit\n").returncode, 0)
        self.same("a fault", self.operate("operate", lines="stpe\nquit\n").returncode, 1)
        self.same("an assertion", self.operate(*SALES, lines="assert TOTAL = 1\n").returncode, 1)
        self.same("what is so", self.operate(*SALES, lines="assert TOTAL = 0\n").returncode, 0)

    def test_language(self):
        """Statements are read in it."""
        for words, answer, status in (
            ([], "? MLCWA 1,2: MLCWA isn't an operation; did you mean MLC?\n", 1),
            (["--language", "ibm"], "00600  ~L001002\n", 0),
        ):
            ran = self.operate("operate", *words, lines="deposit 600 = MLCWA 1,2\n")
            self.expect(" ".join(words), ran, status, BARE + answer)

    def test_graphics(self):
        """Those of decks, and of a source; what is shown has ours."""
        (self.desk / "formula.cards").write_text("A=(B)+\n")
        (self.desk / "formula").write_text("               ORG  500\n     A         DCW  'X=(Y'\n"
                                           "               END  500\n")
        for words, read in ([], "A=(B)+"), (["--graphics", "fortran"], "A#%B)&"), (["--graphics", "ours"], "A=(B)+"):
            ran = self.operate("operate", "--cards", "formula.cards", *words,
                               lines="deposit 500 = R\ndeposit 501 = H\nstart 500\nstep\n")
            self.check(" ".join(words), "" if f" reads {read}\n" in ran.stdout.decode() else ran)
        for words in ["--graphics", "fortran"], ["--source-graphics", "fortran"]:
            ran = self.operate("operate", "formula", *words, lines="print A\n")
            self.check(" ".join(words), "" if ran.stdout.endswith(b"A  00500-00503  X#%Y\n") else ran)
        words = ["--graphics", "fortran", "--source-graphics", "ours"]
        self.same(" ".join(words), self.operate("operate", "formula", *words).returncode, 1)
        for words, said in [
            (["--graphics", "fortran"], SOURCE_SIMH),
            (["--source-graphics", "simh"], SOURCE_FORTRAN),
        ]:
            (self.desk / "another").write_text("     A         DCW  @A+@\n               END  0\n")
            ran = self.operate("operate", "another", *words)
            said = f"ibm1401: another: {said}\n".encode()
            self.check(f"{words}: the option", "" if ran.stderr.startswith(said) else ran.stderr)

    def test_fit(self):
        """The machine is fitted before all else, and its journal says so."""
        lines = "registers\njournal 1\nsave kept\n"
        ran = self.operate("operate", "--fit", "multiply,bit-test", lines=lines)
        shown = ran.stdout.decode()
        self.same("its status", ran.returncode, 0)
        self.check("its registers", "" if "\nfitted: multiply, bit-test\n1 command recorded\n" in shown else shown)
        said, answered = recorded((self.desk / "kept").read_text())
        self.same("its journal", (said[0].split()[0], answered), ("FIT", ["OK"]))
        self.check("the same in the console", "" if f"1  {said[0]}" in shown else shown)
        ran = self.operate("operate", "sales.source", "--fit", "multiply", lines="save source\n")
        self.same("before a source", recorded((self.desk / "source").read_text())[0][0].split()[0], "FIT")
        ran = self.operate("operate", lines="registers\n")
        self.same("none by default", "fitted" in ran.stdout.decode(), False)

    def test_limit(self):
        lines = "deposit 600 ~B600~.\ngo 600\n"
        ran = self.operate("operate", "--limit", "30000", lines=lines)
        self.check("it ends", "" if b"LIMIT: 30000 steps" in ran.stdout else ran.stdout)
        for line in "go 600", "step", "continue 5", "until 600":
            ran = self.operate("operate", "--limit", "0", lines=f"deposit 600 ~B600~.\nstart 600\n{line}\njournal\n")
            shown = ran.stdout.decode()
            self.check(line, "" if "LIMIT: 0 steps" in shown and "RUN" not in shown else shown)

    def test_resume(self):
        first = self.operate(*SALES, "--journal", "kept", lines="until NEXT\n")
        self.same("a journal", first.returncode, 0)
        ran = self.operate("operate", "sales.source", "--resume", "kept", lines="set TOTAL = 5\nstep 2\nback 1\n")
        self.same("it goes on", ran.returncode, 0)
        said, _ = recorded((self.desk / "kept").read_text())
        self.same("its last commands", said[-3:], ["RUN 6", "DEPOSIT 0489 ~00000005", "RUN 1"])
        self.expect("it is legal", program("journal", "--check", self.desk / "kept"), 0, f"{len(said)} entries\n")
        ran = self.operate("operate", "--resume", "kept", "five_and_five.image")
        self.expect("an image", ran, 1, "", "ibm1401: five_and_five.image: an image has no labels\n")


class Refused(Operated):
    """What the machine refuses, or has no room for."""

    def test_a_card_that_the_hopper_has_no_room_for(self):
        """It is in hand, and no other goes before it."""
        (self.desk / "full.cards").write_text("CARD\n" * 500)
        greeting = "full.cards: 500 cards; hopper: 500\n" + BARE
        gone = "1 card in hand, in no journal, is gone\n"
        ran = self.operate("operate", "--cards", "full.cards", lines="feed LATER\njournal 1\nsave kept\n")
        self.expect("it", ran, 0, greeting + f"hopper: 500; in hand: 1\n500  {'FEED CARD':<31}OK\n"
                    + "500 commands are in kept, without 1 card in hand\n" + gone)
        ran = self.operate("operate", "--cards", "full.cards", lines="feed LATER\nundo\nfeed LAST\nundo 2\n")
        self.expect("it is taken back", ran, 1, greeting + "hopper: 500; in hand: 1\n"
                    "0 commands and 1 card in hand taken back; next is 0000\nhopper: 500; in hand: 1\n"
                    "? only one line has recorded anything\n" + gone)

    def test_nothing_to_undo(self):
        ran = self.operate("operate", lines="undo\n")
        self.expect("it", ran, 1, BARE + "? no line has recorded anything by now\n")

    def test_the_load_key_without_a_card(self):
        ran = self.operate("operate", lines="load\njournal 1\n")
        self.expect("it", ran, 1, BARE
                    + f"? refused: the load key needs a card in the hopper\n1  {'LOAD':<31}REFUSED 3 READER\n")


class Kept(Operated):
    """A journal's file, whatever happens."""

    def test_a_line_that_goes_back_says_what_the_file_has(self):
        self.operate("operate", lines="deposit 700 ~A\nsave other\n")
        lines = "deposit 400 ~N\ngo 400\nback 1\nwhy\nrestart\nrestore other\n"
        ran = self.operate("operate", "--journal", "kept", lines=lines)
        shown = ran.stdout.decode().splitlines()
        for line, part in (
            ("back", "kept has the journal up to here; next is 0400"),
            ("why", "nothing has run since the machine went back"),
            ("restart", "kept has the journal up to here; next is 0000"),
            ("restore", "kept has the journal up to here; next is 0000"),
        ):
            self.check(line, "" if any(row.startswith(part) for row in shown) else shown)

    def test_a_journal_of_another_size_takes_the_place_of_the_old(self):
        self.operate("operate", "--size", "8000", lines="deposit 7000 ~A\nsave large\n")
        ran = self.operate("operate", "--journal", "kept", lines="deposit 700 ~B\nrestore large\ndeposit 7001 C\n")
        self.same("its status", ran.returncode, 0)
        said, _ = recorded((self.desk / "kept").read_text())
        self.same("its commands", said, ["DEPOSIT 7000 ~A", "DEPOSIT 7001 C"])
        self.expect("it is legal", program("journal", "--check", self.desk / "kept"), 0, "2 entries\n")
        self.same("no other file", sorted(each.name for each in self.desk.glob("kept*")), ["kept"])

    def test_then_a_link_and_the_rights_stay(self):
        self.operate("operate", "--size", "8000", lines="save large\n")
        self.operate("operate", "--journal", "kept", lines="deposit 700 ~B\n")
        kept, link = self.desk / "kept", self.desk / "link"
        kept.chmod(0o640)
        link.symlink_to("kept")
        ran = self.operate("operate", "--resume", "link", lines="restore large\n")
        self.same("its status", ran.returncode, 0)
        self.check("it is a link", "" if link.is_symlink() else link)
        self.holds("its file", kept, "JOURNAL1 8000\n")
        self.same("the rights", kept.stat().st_mode & 0o777, 0o640)

    def test_a_file_that_has_got_the_name_meanwhile_stays(self):
        self.operate("operate", "--size", "8000", lines="save large\n")
        kept, moved = self.desk / "kept", self.desk / "moved"
        call = [PROGRAM, "operate", "--journal", "kept"]
        with subprocess.Popen(call, cwd=self.desk, stdin=subprocess.PIPE, stdout=subprocess.PIPE,
                              stderr=subprocess.PIPE) as process:
            process.stdin.write(b"deposit 700 ~B\n")
            process.stdin.flush()
            while b"00700" not in process.stdout.readline():
                pass
            kept.rename(moved)
            kept.write_text("theirs\n")
            _, error = process.communicate(b"restore large\n", SECONDS)
        self.same("its end", (process.returncode, error), (1, b"ibm1401: session ended: UNKEPT\n"))
        self.holds("their file", kept, "theirs\n")
        self.holds("the journal", moved, "JOURNAL1 4000\n1\t0\tDEPOSIT 0700 ~B\tOK\n")

    def test_a_source_next_to_the_journal_of_a_larger_machine(self):
        source = self.desk / "high.source"
        source.write_text("               ORG  5000\n     START     NOP\n     TOTAL     DCW  @0005@\n"
                          "               H\n               END  START\n")
        self.operate("operate", source.name, "--size", "8000", "--journal", "kept", lines="step\n")
        ran = self.operate("operate", source.name, "--resume", "kept", lines="print TOTAL\n")
        self.same("its end", (ran.returncode, ran.stderr), (0, b""))
        self.check("the label", "" if b"TOTAL" in ran.stdout else ran.stdout)

    def test_a_journal_stays_as_it_is_if_the_source_next_to_it_is_refused(self):
        """Its unfinished last line too, which is cut off once the source is read."""
        whole = "JOURNAL1 4000\n1\t0\tDEPOSIT 0700 ~A\tOK\n"
        kept, faulty = self.desk / "kept", self.desk / "faulty"
        faulty.write_text("               BOO\n               END  333\n")
        for end in "2\t0\tDEPOSIT 0701 ~B\tO", "":
            kept.write_text(whole + end)
            for source, error in [
                ("nosuch", "nosuch: no such file\n"),
                ("five_and_five.image", "five_and_five.image: an image has no labels\n"),
                ("faulty", "line 1: 6 OPERATION\n"),
            ]:
                said = "faulty:1:16: OPERATION: BOO isn't an operation\n" if source == "faulty" else ""
                ran = self.operate("operate", source, "--resume", "kept")
                self.expect(f"{source}, {end}", ran, 1, "", f"{said}ibm1401: {error}")
                self.holds(f"{source}, {end}: the journal", kept, whole + end)
            ran = self.operate("operate", "sales.source", "--resume", "kept", lines="deposit 702 ~C\n")
            cut = "ibm1401: line 3 was unfinished and was discarded\n" if end else ""
            self.same(f"{end}: it goes on", (ran.returncode, ran.stderr), (0, cut.encode()))
            self.holds(f"{end}: its next line", kept, f"{whole}2\t0\tDEPOSIT 0702 ~C\tOK\n")

    def test_a_journal_for_which_the_disk_has_no_room(self):
        """A beginning of it stays, whose last line `resume` discards."""
        self.operate("operate", lines="".join(f"deposit {400 + place} ~A\n" for place in range(60)) + "save many\n")
        lines = "deposit 400 ~B\nrestore many\n"
        ran = self.operate("operate", "--journal", "kept", lines=lines, preexec_fn=small_files)
        self.same("its end", (ran.returncode, ran.stderr), (1, b"ibm1401: session ended: UNKEPT\n"))
        kept, many = (self.desk / name for name in ("kept", "many"))
        self.check("what it has", "" if many.read_bytes().startswith(kept.read_bytes()) else kept.read_bytes())
        resumed = program("resume", kept, lines=b"EXAMINE 0400 1\n")
        self.same("it is taken up", (resumed.returncode, resumed.stdout), (0, b"~A\n"))

    def test_killed_at_a_hundred_moments(self):
        """Each time `journal --check` takes the file, unless it is empty, and then nothing was shown yet."""
        whole = time.monotonic()
        self.operate(*SALES, "--journal", "whole", lines=RESTLESS)
        whole = time.monotonic() - whole
        for moment in range(100):
            kept = self.desk / f"kept{moment}"
            shown = self.desk / f"shown{moment}"
            call = [PROGRAM, *SALES, "--journal", kept.name]
            with shown.open("wb") as output, subprocess.Popen(call, cwd=self.desk, stdin=subprocess.PIPE, stdout=output,
                                                              stderr=subprocess.DEVNULL) as process:
                process.stdin.write(RESTLESS.encode())
                process.stdin.flush()
                time.sleep(whole * (moment + 1) / 100)
                process.send_signal(signal.SIGKILL)
                process.stdin.close()
                process.wait(SECONDS)
            if kept.exists() and (kept.read_bytes() or shown.read_bytes()):
                checked = program("journal", "--check", kept)
                self.same(f"moment {moment}", (checked.returncode, checked.stderr), (0, b""))

    def test_output_that_is_closed_or_full(self):
        error = b"ibm1401: cannot write\n"
        full = shell('"$0" operate > /dev/full', stdin=subprocess.DEVNULL)
        self.same("/dev/full", (full.returncode, full.stderr), (1, error))
        closed = shell('"$0" operate >&-', stdin=subprocess.DEVNULL)
        self.same("closed", (closed.returncode, closed.stderr), (1, error))

    def test_a_journal_that_cannot_grow(self):
        """The commands before the one at which it can't are taken up."""
        for line, command in ("set TOTAL = 5\n", "DEPOSIT 0489 ~00000005"), ("step\n", "RUN 1"):
            kept = self.desk / command
            ran = self.operate(*SALES, "--journal", kept, lines=line * 50, preexec_fn=small_files)
            self.same(f"{command}: its end", (ran.returncode, ran.stderr), (1, b"ibm1401: session ended: UNKEPT\n"))
            self.same(f"{command}: it is taken up", program("resume", kept).returncode, 0)
            self.same(f"{command}: its last line", recorded(kept.read_text())[0][-1], command)


if __name__ == "__main__":
    unittest.main()
