"""`--graphics`: decks and sources in the graphics of this machine's chain, of SIMH's, and of one for formulas."""
import unittest

from tests.chains import CHAINS, DOUBTFUL, FORTRAN, OURS, SIMH, SOURCE_FORTRAN, SOURCE_SIMH
from tests.jobs import COPY, ending
from tests.support import EXAMPLES, ProgramTest, misuse, program

# A source in the graphics of each chain: a text with a record mark and a group mark, and a sum of numbers with signs.
SOURCE = """\
               ORG  500
     GO        A    ONE,SUM
               H
               NOP
     TEXT      DCW  {text}
     ONE       DCW  {plus}1
     SUM       DCW  {plus}2
               END  GO
"""
SOURCES = {
    "ours": SOURCE.format(text="@A'B\"C&D%E@", plus="+"),
    "simh": SOURCE.format(text="@A|B}C&D%E@", plus='"'),
    "fortran": SOURCE.format(text="'A|B}C+D(E'", plus='"'),
}


class Graphics(ProgramTest):
    """Decks that are read, punched and made, and sources."""

    def setUp(self):
        self.source, self.deck, self.punch = (self.folder / each for each in ("copy.source", "a.deck", "punched"))
        self.source.write_text(COPY)

    def copied(self, *words):
        """A run of the program that lists and punches columns 1 to 64 of a card."""
        return program("run", self.source, "--cards", self.deck, "--punch", self.punch, *words)

    def has_copied(self, name, ran, punched, said=""):
        """Subtests: it printed all 64 characters, and punched them in these graphics."""
        end = ending("HALT", 427, 7, 1, 1, 1, "line 8, H *-3")
        self.expect(name, ran, 0, f"{OURS}\n", said + end)
        self.holds(f"{name}: punched", self.punch, f"{punched}\n")

    def test_cards_and_punched_cards(self):
        for chain, graphics in CHAINS.items():
            self.deck.write_text(f"{graphics}\n")
            ran = self.copied("--graphics", chain, "--source-graphics", "ours")
            self.has_copied(chain, ran, graphics)
            for other, wanted in CHAINS.items():
                words = ["--graphics", chain, "--source-graphics", "ours", "--out-graphics", other]
                self.has_copied(f"{chain} to {other}", self.copied(*words), wanted)

    def test_without_an_option(self):
        """A deck is read in this machine's graphics, and what may be meant for another chain is reported."""
        self.deck.write_text(f"{OURS}\n")
        said = f"ibm1401: {self.deck}: {DOUBTFUL}\n"
        self.has_copied("all characters", self.copied(), OURS, said)
        self.has_copied("punched for another chain", self.copied("--out-graphics", "simh"), CHAINS["simh"], said)

    def test_what_is_reported(self):
        end = ending("HALT", 427, 7, 1, 1, 1, "line 8, H *-3")
        for words, text, said in [
            ([], "O'HARA & #1", None),
            ([], "12+", DOUBTFUL),
            ([], "A=B", DOUBTFUL),
            ([], "(A", DOUBTFUL),
            (["--graphics", "ours"], "12+ (A) =B", None),
            (["--graphics", "fortran"], "12+ (A) =B", None),
            (["--graphics", "simh"], "A|B}C~{\"", None),
        ]:
            self.deck.write_text(f"{text}\n")
            ran = self.copied("--source-graphics", "ours", *words)
            said = f"ibm1401: {self.deck}: {said}\n" if said else ""
            self.expect(f"{words} {text}", ran, 0, "...", said + end)

    def test_bytes_of_another_chain(self):
        """A byte that the chain hasn't is on no card, and the chain that has it is named, once."""
        for words, text, said, column in [
            ([], "AB}C}", SIMH, 3),
            ([], "{", SIMH, 1),
            (["--graphics", "ours"], "A|", SIMH, 2),
            (["--graphics", "ours"], "A~+", SIMH, 2),
            (["--graphics", "simh"], "12+", FORTRAN, 3),
            (["--graphics", "simh"], "O'HARA", FORTRAN, 2),
            (["--graphics", "fortran"], "AB@", SIMH, 3),
            (["--graphics", "fortran"], "&", SIMH, 1),
        ]:
            self.deck.write_text(f"{text}\n")
            ran = self.copied("--source-graphics", "ours", *words)
            fault = f"line 1, column {column}: no card has this character"
            self.expect(f"{words} {text}", ran, 1, "", f"ibm1401: {self.deck}: {said}\nibm1401: {self.deck}: {fault}\n")

    def test_small_letters_are_capitals_on_each_chain(self):
        self.deck.write_text("a'b\n")
        said = f"ibm1401: {self.deck}: small letters are read as capitals\n"
        ran = self.copied("--graphics", "fortran", "--source-graphics", "ours")
        self.expect("it", ran, 0, "A@B\n", said + ending("HALT", 427, 7, 1, 1, 1, "line 8, H *-3"))
        self.holds("punched", self.punch, "A'B\n")

    def test_sources(self):
        """The image is that of the source in this machine's graphics, and so is the listing."""
        image = None
        for chain, text in SOURCES.items():
            self.source.write_text(text)
            for words in (["--graphics", chain], ["--source-graphics", chain, "--graphics", "ours"]):
                ran = program("assemble", *words, self.source)
                image = image or ran.stdout
                self.expect(f"{chain} {words[0]}", ran, 0, image.decode())
        self.same("the cells", image.decode().splitlines()[1], "00500 20 ~A518519~.~N~A'B\"C&D%E~A~B")

    def test_sources_that_are_for_another_chain(self):
        """If a byte isn't allowed in a source, the chain that has it is named; but `assemble` alone names the fault. If
        the call names a chain, the option is the one for sources, which leaves the decks."""
        for words, text, said in [
            ([], "@}@", SIMH),
            (["--graphics", "simh"], "+1", SOURCE_FORTRAN),
            (["--graphics", "fortran"], "@A@", SOURCE_SIMH),
            (["--source-graphics", "ours"], "@}@", SOURCE_SIMH),
            (["--source-graphics", "simh"], "+1", SOURCE_FORTRAN),
            (["--source-graphics", "fortran"], "@A@", SOURCE_SIMH),
            (["--source-graphics", "ours", "--graphics", "simh"], "@}@", SOURCE_SIMH),
            (["--source-graphics", "simh", "--graphics", "simh"], "+1", SOURCE_FORTRAN),
        ]:
            self.source.write_text(f"     A         DCW  {text}\n               END  0\n")
            said = f"ibm1401: {self.source}: {said}\n"
            ran = program("assemble", *words, self.source)
            first = said if words else ""
            self.expect(f"assemble {words}", ran, 1, "", f"{first}ibm1401: line 1: 3 GRAPHIC\n")
            ran = program("assemble", "--all", *words, self.source)
            self.check(f"assemble --all {words}", "" if ran.stderr.startswith(said.encode()) else ran.stderr)
            for more in [], ["--cards", self.deck]:
                ran = program("run", *words, *more, self.source)
                self.check(f"run {words} {more[:1]}", "" if ran.stderr.startswith(said.encode()) else ran.stderr)
                self.same(f"run {words} {more[:1]}: once", ran.stderr.count(b"another chain"), 1)

    def test_the_option_that_is_named_reads_the_source(self):
        """The decks are read as before."""
        self.deck.write_text("A(B\n")
        self.source.write_text(COPY.replace("END", "DCW  @A@\n               END"))
        words = ["--graphics", "fortran"]
        self.same("it is refused", self.copied(*words).returncode, 1)
        ran = self.copied(*words, "--source-graphics", "simh")
        self.same("it is read", (ran.returncode, ran.stdout), (0, b"A%B\n"))

    def test_decks_that_are_made(self):
        """A deck in another chain's graphics loads what the source says, and is listed so."""
        self.source.write_text(SOURCES["ours"])
        for chain in CHAINS:
            self.expect(chain, program("assemble", self.source, "--deck", self.deck, "--out-graphics", chain))
            marks = {"ours": "A'B\"C&D%E", "simh": "A|B}C&D%E", "fortran": "A|B}C+D(E"}[chain]
            self.check(f"{chain}: the text", "" if marks in self.deck.read_text() else self.deck.read_text())
            listed = program("disassemble", "--load", "--graphics", chain, self.deck)
            self.check(f"{chain}: the listing", "" if b"A'B\"C&D%E" in listed.stdout else listed)
            ran = program("run", "--load", "--graphics", chain, self.deck)
            self.same(f"{chain}: it halts", (ran.returncode, ran.stderr[:21]), (0, b"ibm1401: HALT at 0507"))

    def test_plus_signs_for_formulas(self):
        """A plus sign there is an ampersand here, which the wider language reads as a plus sign."""
        self.source.write_text(SOURCES["fortran"].replace('"', "+"))
        image = program("assemble", "--language", "ibm", "--graphics", "fortran", self.source)
        self.source.write_text(SOURCES["ours"])
        self.expect("the image", image, 0, program("assemble", self.source).stdout.decode())

    def test_a_served_deck(self):
        self.deck.write_text("A|}\n")
        room = self.room("serve", "--cards", self.deck, "--graphics", "simh", seats=1)
        with room.console() as console:
            self.same("the card", console.say(b"LOAD\nEXAMINE 0001 3\n"), b"OK\n~A'\"\n")
        self.ended(room, "the card is a command as well", 3)

    def test_misused(self):
        for words in (
            ["run", self.source, "--graphics", "ascii"],
            ["assemble", self.source, "--graphics", ""],
            ["disassemble", "--graphics", "simh", self.source],
            ["serve", "--port", "1", "--seats", "1", "--graphics", "simh"],
            ["console", "--graphics", "simh"],
        ):
            self.expect(f"{words[0]}", program(*words), 2, "", "error: ...")


if __name__ == "__main__":
    unittest.main()
