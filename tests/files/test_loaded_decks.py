"""`disassemble --load`: what a deck has loaded when its program begins, and why a deck isn't loaded."""
import unittest

from tests.support import EXAMPLES, MOST_BYTES, ProgramTest, program

FIVE = EXAMPLES / "five_and_five.source"

# A deck as one was punched by hand: the first card sets the word marks of a loader, two load the program, which is a
# halt, and the last one begins it. It leaves the loader in core storage.
HAND_PUNCHED = """\
,008015,022029,033040,0470511040
.500                                   L0045031040
X                                      L0015041040
                                       B500
"""
LISTED = """\
00001          ~ 
00008          ~ 
00015          ~ 
00022          ~ 
00029          ~ 
00033          ~ 
00040*B500     B    500
00047          ~ 
00051          ~ 
00500 .500     H    500
00504          ~X
00500          END  500
"""


class LoadedDecks(ProgramTest):
    """What a deck loads, and its listing."""

    def setUp(self):
        self.deck = self.folder / "a.deck"

    def listed(self, deck, *words):
        """A listing of this deck."""
        self.deck.write_text(deck)
        return program("disassemble", "--load", *words, self.deck)

    def test_a_deck_of_our_own(self):
        """Its last card clears the loader; a field of blanks is listed as far as its word mark."""
        self.expect("the deck", program("assemble", FIVE, "--deck", self.deck))
        listing = (EXAMPLES / "five_and_five.disassembly").read_text()
        wanted = listing.replace("00418          ~   \n", "00418          ~ \n")
        self.check("the field is shorter", "" if wanted != listing else "it is the same")
        self.expect("its listing", program("disassemble", "--load", self.deck), 0, wanted)

    def test_what_was_carried_out_is_marked(self):
        self.expect("the listing", self.listed(HAND_PUNCHED), 0, LISTED)

    def test_cards_after_the_deck_are_left(self):
        self.expect("the listing", self.listed(HAND_PUNCHED + "DATA\n"), 0, LISTED)

    def test_small_letters(self):
        said = f"ibm1401: {self.deck}: small letters are read as capitals\n"
        self.expect("the listing", self.listed(HAND_PUNCHED.lower()), 0, LISTED, said)

    def test_the_size_of_core_storage(self):
        self.expect("the deck", program("assemble", "--size", "16000", FIVE, "--deck", self.deck))
        ran = program("disassemble", "--load", self.deck)
        self.expect("4,000 places", ran, 1, "", "ibm1401: the deck isn't loaded: ADDRESS at 0036\n")
        ran = program("disassemble", "--load", "--size", "16000", self.deck)
        self.same("16,000 places", (ran.returncode, ran.stdout[-5:]), (0, b" 400\n"))

    def test_decks_that_are_not_loaded(self):
        """No card, no card more, no instruction, a program outside of core, and a loop on the card."""
        for name, deck, why in [
            ("no card", "", "READER at 0000"),
            ("no last card", "".join(HAND_PUNCHED.splitlines(True)[:-1]), "READER at 0047"),
            ("no operation", "]\n", "OPCODE at 0001"),
            ("a program outside of core", "B500\n".replace("500", "I9I"), "NOMARK at 15999"),
            ("a loop", "B001\n", "LIMIT at 0001"),
        ]:
            self.expect(name, self.listed(deck), 1, "", f"ibm1401: the deck isn't loaded: {why}\n")

    def test_files_that_are_no_decks(self):
        for deck, why in [
            ("A\x7f\n", "line 1, column 2: no card has this character"),
            ("A" * 81, "line 1, column 81: a card has 80 columns"),
        ]:
            self.expect(why, self.listed(deck), 1, "", f"ibm1401: {self.deck}: {why}\n")
        ran = program("disassemble", "--load", self.folder / "none")
        self.expect("no file", ran, 1, "", f"ibm1401: {self.folder / 'none'}: no such file\n")
        self.deck.write_bytes(b" " * (MOST_BYTES + 1))
        ran = program("disassemble", "--load", self.deck)
        self.expect("too long", ran, 1, "", f"ibm1401: {self.deck}: is larger than {MOST_BYTES} bytes\n")

    def test_misused(self):
        self.expect("no size of a machine", self.listed(HAND_PUNCHED, "--size", "1399"), 1, "", "ibm1401: size refused\n")
        ran = program("disassemble", "--load", "--size", "1399", self.folder / "none")
        self.expect("the same without a file", ran, 1, "", "ibm1401: size refused\n")
        self.same("no number", self.listed(HAND_PUNCHED, "--size", "x").returncode, 2)


if __name__ == "__main__":
    unittest.main()
