"""`run`: what is refused before it begins, files and streams that can't be read or written, and decks that load
themselves."""
import os
import re
import unittest

from tests.chains import SIMH
from tests.jobs import NO_CARD, SALES, SALES_CALL, SALES_ENDING, ending
from tests.support import EXAMPLES, MOST_BYTES, NO_FILE, TOP, ProgramTest, misuse, program, run, shell

HALT = "               H    *-3\n               END  0\n"


class Refused(ProgramTest):
    """A run that doesn't begin."""

    def setUp(self):
        names = ("source", "deck", "none", "long", "loop")
        self.source, self.deck, self.none, self.long, self.loop = (self.folder / each for each in names)
        self.source.write_text(HALT)

    def make_unreadable_files(self):
        """Makes a file that is too long, and a link that leads to itself."""
        self.long.write_bytes(b" " * (MOST_BYTES + 1))
        self.loop.symlink_to(self.loop)

    def test_options(self):
        self.make_unreadable_files()
        for words, fault in [
            (["--size", "1401"], "size refused"),
            (["--cards", self.none], f"{self.none}: no such file"),
            (["--cards", self.folder], f"{self.folder}: is a folder"),
            (["--cards", self.source / "deck"], f"{self.source / 'deck'}: no such file"),
            (["--cards", self.long], f"{self.long}: is larger than {MOST_BYTES} bytes"),
            (["--cards", self.loop], f"{self.loop}: cannot be read"),
            (["--punch", self.folder], f"cannot write {self.folder}"),
            (["--paper", self.none / "paper"], f"cannot write {self.none / 'paper'}"),
        ]:
            ran = program("run", self.source, *words)
            self.expect(f"{words[0]}: {fault}", ran, 1, "", f"ibm1401: {fault}\n")

    def test_sources_and_images(self):
        outside = "1:1: OUT OF CORE: its value is {}, 1 past the last place in core, {}, which --size sets"
        for text, words, told, fault in [
            ("               ZZZ\n", [], ["1:16: OPERATION: ZZZ isn't an operation"], "line 1: 6 OPERATION"),
            ("               MLL\n               B    Q\n               END  0\n", [],
             ["1:16: OPERATION: MLL isn't an operation; did you mean MLC?",
              "2:21: UNDEFINED: Q isn't the label of any line"],
             "line 1: 6 OPERATION"),
            ("               END  4000\n", [], [outside.format(4000, 3999)], "line 1: 9 OUT OF CORE"),
            ("               END  1400\n", ["--size", "1400"], [outside.format(1400, 1399)],
             "line 1: 9 OUT OF CORE"),
            ("IMAGE1 4001\n", [], [], "image refused: 2 HEADER"),
            ("IMAGE2 4001\n", [], [], "image refused: 2 HEADER"),
            ("IMAGE1 4000\n", [], [], "image refused: 5 TRUNCATED"),
        ]:
            self.source.write_text(text)
            error = "".join(f"{self.source}:{each}\n" for each in told) + f"ibm1401: {fault}\n"
            self.expect(f"{text.strip()}", program("run", self.source, *words), 1, "", error)

    def test_warnings(self):
        """A run warns of what isn't read and of what isn't started, and of nothing else."""
        self.source.write_text("""\
     START     H    START
     SPARE     DCW  @A @ B@
               EX   START
               DCW  @12345678901234567890123456789012345678901234567890@,275
               ORG  START
               H    START
               DCW  0
               END  START
""")
        told = ["2:21: WARNING: the text ends at its second at sign: the at sign after a blank is in the remark",
                "3:16: WARNING: nothing is started here: all is loaded before the program runs",
                "4:73: WARNING: the operands end with column 72: what follows isn't read"]
        error = "".join(f"{self.source}:{each}\n" for each in told)
        ran = program("run", self.source)
        end = "ibm1401: HALT at 0333 (line 6, H START) after 1 step; 0 cards read, 0 lines printed, 0 cards punched\n"
        self.expect("it", ran, 0, "", error + end)

    def test_files_that_cannot_be_read(self):
        self.make_unreadable_files()
        for name, fault in [
            (self.none, "no such file"),
            (self.folder, "is a folder"),
            (self.long, f"is larger than {MOST_BYTES} bytes"),
            (self.loop, "cannot be read"),
        ]:
            self.expect(fault, program("run", name), 1, "", f"ibm1401: {name}: {fault}\n")

    def test_misused(self):
        for words, error in [
            ([], misuse(NO_FILE, "run <FILE>")),
            (["a", "b"], misuse("unexpected argument 'b' found", "run [OPTIONS] [FILE]")),
            (["--size", "x", "a"], misuse("invalid value 'x' for '--size <N>': invalid digit found in string")),
            (["--switches", "H", "a"], misuse("the switches are letters from A to G", "run [OPTIONS] [FILE]")),
            (["--limit", "-1", "a"], "error: unexpected argument '-1' found\n..."),
        ]:
            self.expect(f"run {' '.join(words)} ends with 2", program("run", *words), 2, "", error)

    def test_decks(self):
        bad = "no card has this character"
        for text, *said in [
            ("A\n" * 6 + " " * 11 + "~\n", SIMH, f"line 7, column 12: {bad}"),
            ("A\n" * 6 + " " * 11 + "`\n", f"line 7, column 12: {bad}"),
            ("A\n" * 6 + " " * 11 + "\u00e9\n", f"line 7, column 12: {bad}"),
            ("\n" + "A" * 81 + "\n", "line 2, column 81: a card has 80 columns"),
            ("A\rB\n", f"line 1, column 2: {bad}"),
            ("A\rB\n~", SIMH, f"line 1, column 2: {bad}"),
            ("\nAB~~", SIMH, f"line 2, column 3: {bad}"),
        ]:
            self.deck.write_text(text, newline="")
            ran = program("run", self.source, "--cards", self.deck, "--punch", self.none)
            error = "".join(f"ibm1401: {self.deck}: {each}\n" for each in said)
            self.expect(f"{text[-20:]!r}: {said}", ran, 1, "", error)
        self.check("nothing is made", "there is a file" if self.none.exists() else "")

    def test_permission_denied(self):
        """Files that may not be read, and places that may not be written. Root may do both, so its run is nobody's."""
        how = {"user": "nobody", "extra_groups": []} if os.geteuid() == 0 else {}
        secret, locked = self.folder / "secret", self.folder / "locked"
        secret.write_text(HALT)
        locked.mkdir()
        for path, mode in (self.folder, 0o755), (self.source, 0o644), (secret, 0o000), (locked, 0o555):
            path.chmod(mode)
        out = locked / "out"
        for words, fault in [
            ([secret], f"{secret}: permission denied"),
            ([secret, "--load"], f"{secret}: permission denied"),
            ([self.source, "--cards", secret], f"{secret}: permission denied"),
            ([self.source, "--paper", secret], f"cannot write {secret}"),
            ([self.source, "--paper", out], f"cannot write {out}"),
            ([self.source, "--punch", out], f"cannot write {out}"),
            ([self.source, "--trace", out], f"cannot write {out}"),
            ([self.source, "--tape", f"1={out}:new"], f"cannot write {out}"),
        ]:
            shown = " ".join(str(word).removeprefix(f"{self.folder}/") for word in words)
            self.expect(f"run {shown}", program("run", *words, **how), 1, "", f"ibm1401: {fault}\n")
        ran = program("disassemble", secret, **how)
        self.expect("disassemble", ran, 1, "", f"ibm1401: {secret}: permission denied\n")


class Streams(ProgramTest):
    """Outputs that are closed or take nothing."""

    call = f'"$0" run {" ".join(SALES_CALL)}'
    paper = SALES.with_suffix(".paper").read_bytes()

    def test_outputs_that_take_nothing(self):
        cannot = "ibm1401: cannot write"
        for words, status, output, error in [
            (">&-", 1, "", f"{cannot}\n"),
            (">/dev/full", 1, "", f"{cannot}\n"),
            ("--paper /dev/full", 1, "", f"{cannot} /dev/full\n"),
            ("--punch /dev/full", 0, self.paper, SALES_ENDING),
            ("--paper /dev/null >&-", 0, "", SALES_ENDING),
            ("2>&-", 0, self.paper, ""),
            ("--limit 3 2>/dev/full", 1, "", ""),
        ]:
            self.expect(words, shell(f"{self.call} {words}"), status, output, error)

    def test_standard_output_by_its_name_is_written_as_a_stream(self):
        call = ("run", "--load", EXAMPLES / "listing.deck", "--switches", "A")
        paper, punched = (EXAMPLES / "listing.paper").read_bytes(), self.folder / "punched"
        self.same("it ends", program(*call, "--punch", punched).returncode, 0)
        for words, wanted in [
            (["--paper", "/dev/stdout"], paper),
            (["--paper", "/dev/null", "--punch", "/dev/stdout"], punched.read_bytes()),
        ]:
            out = self.folder / "out"
            with out.open("wb") as file:
                file.write(b"before\n")
                file.flush()
                ran = program(*call, *words, stdout=file)
            self.same(f"{words}: its status", ran.returncode, 0)
            self.holds(f"{words}: what is there", out, b"before\n" + wanted)
            self.same(f"{words}: a pipe", program(*call, *words).stdout, wanted)
        out = self.folder / "both"
        with out.open("wb") as file:
            program(*call, "--punch", "/dev/stdout", stdout=file)
        self.same("paper and cards", len(out.read_bytes()), len(paper) + len(punched.read_bytes()))

    def test_nothing_is_written_if_a_file_cannot_be_made(self):
        deck, old = EXAMPLES / "listing.deck", self.folder / "old"
        none = self.folder / "none" / "file"
        for option, others in [
            ("--paper", ["--punch", old]), ("--punch", ["--paper", old]), ("--trace", ["--paper", old]),
            ("--trace", ["--punch", old]), ("--paper", ["--image", old]), ("--punch", ["--trace", old]),
        ]:
            for name in none, self.folder:
                old.write_text("old")
                ran = program("run", "--load", deck, "--switches", "A", option, name, *others)
                self.expect(f"{option} {name} {others[0]}", ran, 1, "", f"ibm1401: cannot write {name}\n")
                self.holds("it stays", old, "old")
        for option in "--paper", "--punch", "--trace", "--image":
            old.write_text("old")
            ran = program("run", "--load", deck, "--switches", "A", "--tape", f"1={none}:new", option, old)
            self.expect(f"a reel, {option}", ran, 1, "", f"ibm1401: cannot write {none}\n")
            self.holds("it stays", old, "old")
        old.unlink()
        ran = program("run", "--load", deck, "--switches", "A", "--trace", none, "--paper", old)
        self.expect("a file that isn't there", ran, 1, "", f"ibm1401: cannot write {none}\n")
        self.check("it isn't made", "" if not old.exists() else "it is there")

    def test_a_reel_that_is_not_written_is_reported_next_to_the_paper(self):
        reel, text = self.folder / "reel", b"\3\0\0\0" b"123\0" b"\3\0\0\0"
        reel.write_bytes(text)
        ran = shell(f"ulimit -f 0; {self.call} --paper /dev/full --tape 1={reel}:ring")
        error = f"ibm1401: cannot write {reel}\nibm1401: cannot write /dev/full\n"
        self.expect("it", ran, 1, "", error)
        self.holds("the reel", reel, text)

    def test_cards_that_a_full_disk_does_not_take(self):
        copy = EXAMPLES / "deck_copy"
        ran = program("run", f"{copy}.source", "--cards", f"{copy}.cards", "--punch", "/dev/full", "--switches", "A")
        is_part = copy.with_suffix(".paper").read_bytes().startswith(ran.stdout)
        self.check("what was printed is a beginning of the paper", "" if is_part else f"{ran.stdout}")
        self.same("the end", (ran.returncode, ran.stderr), (1, b"ibm1401: cannot write /dev/full\n"))

    def test_no_file_takes_the_place_of_a_closed_stream(self):
        punch = self.folder / "punch"
        for words, status, error in [
            (">&-", 1, "ibm1401: cannot write\n"),
            ("<&- >&-", 1, "ibm1401: cannot write\n"),
            ("2>&-", 0, ""),
            ("<&- 2>&-", 0, ""),
        ]:
            output = self.paper if status == 0 else ""
            self.expect(words, shell(f"{self.call} --punch {punch} {words}"), status, output, error)
            self.holds(f"{words}: the punched cards", punch, "")


class LoadKey(ProgramTest):
    """Decks that are started by the load key."""

    def setUp(self):
        self.first = self.folder / "first"

    def test_a_deck_of_the_examples(self):
        deck, paper = EXAMPLES / "listing.deck", (EXAMPLES / "listing.paper").read_bytes()
        end = ending("HALT", 460, 253, 27, 23, 21, "H")
        self.expect("in one file", program("run", "--load", deck, "--switches", "A"), 0, paper, end)
        cards, rest = deck.read_text().splitlines(keepends=True), self.folder / "rest"
        self.first.write_text("".join(cards[:6]))
        rest.write_text("".join(cards[6:]))
        ran = program("run", "--load", self.first, "--cards", rest, "--switches", "A")
        self.expect("in two files", ran, 0, paper, end)

    def test_one_card_or_none(self):
        self.first.write_text("")
        end = ending("READER", 0, 0, why=NO_CARD)
        self.expect("no card", program("run", "--load", self.first), 1, "", end)
        for name, deck in ("one card", ",008009.\n"), ("the first of two", ",008009.\nREST\n"):
            self.first.write_text(deck)
            ran = program("run", "--load", self.first, "--size", "1400")
            self.expect(name, ran, 0, "", ending("HALT", 8, 2, 1, shown="H"))

    def test_refused(self):
        self.first.write_text(",008009.\n")
        ran = program("run", "--load", self.first, "--size", "1401")
        self.expect("a size", ran, 1, "", "ibm1401: size refused\n")
        fault = f"ibm1401: {self.first}: line 7, column 12: no card has this character\n"
        for byte, said in ("`", ""), ("~", f"ibm1401: {self.first}: {SIMH}\n"):
            self.first.write_text("A\n" * 6 + " " * 11 + f"{byte}\n")
            self.expect(f"a deck with {byte}", program("run", "--load", self.first), 1, "", said + fault)
        none = self.folder / "none"
        self.expect("no deck", program("run", "--load", none), 1, "", f"ibm1401: {none}: no such file\n")


def ends_of(ran):
    """Where a run ended, how many cards it read, and what else it counted."""
    return re.match(rb"ibm1401: (\w+ at \d+) .*; (\d+) cards? read, (.*)", ran.stderr).groups()


def steps_of(trace):
    """The lines of a trace without the registers, the fourth and the fifth field."""
    return [[*line.split(b"\t")[:3], *line.split(b"\t")[5:]] for line in trace.splitlines()]


class OwnDecks(ProgramTest):
    """An example's source as a deck that loads itself does what the source does, at the same places."""

    def ran_with(self, words):
        """A run with switch A on, and its paper, its punched cards and its trace."""
        files = [self.folder / each for each in ("paper", "punched", "trace")]
        named = [word for each, file in zip(("--paper", "--punch", "--trace"), files) for word in (each, file)]
        ran = program("run", *words, *named, "--switches", "A", "--limit", "1000000")
        return ran, [file.read_bytes() for file in files]

    def test_each_example(self):
        deck, sources = self.folder / "deck", sorted(EXAMPLES.glob("*.source"))
        self.assertTrue(sources)
        for source in sources:
            self.expect(f"{source.name}: assemble --deck", program("assemble", source, "--deck", deck))
            cards = source.with_suffix(".cards")
            rest = ["--cards", cards] if cards.exists() else []
            self.hold_alike(source.name, self.ran_with([source, *rest]), self.ran_with(["--load", deck, *rest]),
                            len(deck.read_text().splitlines()))

    def hold_alike(self, name, plain, loaded, own):
        """Subtests: a run of a source, and one of its deck with this many cards of its own."""
        (ran, (paper, punched, trace)), (ran_from_deck, (its_paper, its_punched, its_trace)) = plain, loaded
        self.same(f"{name}: the paper", its_paper, paper)
        self.same(f"{name}: the cards", its_punched, punched)
        # The deck has steps of its own first; the registers differ since a source begins with both 0.
        steps = steps_of(trace)
        self.check(f"{name}: the steps", "" if steps_of(its_trace)[-len(steps):] == steps else "they are others")
        self.same(f"{name}: the status", ran_from_deck.returncode, ran.returncode)
        where, read, rest = ends_of(ran)
        self.same(f"{name}: the end", ends_of(ran_from_deck), (where, b"%d" % (int(read) + own), rest))

    def test_the_deck_that_running_shows(self):
        page = (TOP / "docs/RUNNING.md").read_text()
        block = re.search(r"### A deck of your own\n.*?```sh\n(.*?)```", page, re.DOTALL)[1]
        calls = block.replace("/tmp/sales.deck", str(self.folder / "deck"))
        paper = SALES.with_suffix(".paper").read_bytes()
        ran = run(["bash", "-ec", calls], cwd=self.top)
        self.expect("its paper", ran, 0, paper, "ibm1401: HALT at 0463 ...")


if __name__ == "__main__":
    unittest.main()
