"""`run --load --image`: the image of what a deck has loaded, written whole or not at all, and then the run."""
import unittest
from pathlib import Path

from tests.jobs import ending
from tests.support import EXAMPLES, ProgramTest, program
from tests.files.test_loaded_decks import HAND_PUNCHED


class StoredImages(ProgramTest):
    """The image of a deck that is run."""

    def setUp(self):
        self.deck, self.image, self.paper = (self.folder / each for each in ("a.deck", "an.image", "paper"))

    def stored(self, deck, *words):
        """A run of this deck that stores its image."""
        self.deck.write_text(deck)
        return program("run", "--load", self.deck, "--image", self.image, *words)

    def nothing_is_stored(self, name):
        """Subtests: the file is as it was, and nothing is left over."""
        self.holds(name, self.image, "as it was\n")
        self.same(f"{name}: nothing is left over", list(self.folder.glob("*.part")), [])

    def test_a_deck_of_our_own(self):
        """What a deck of the assembler's own loads has the cells of the source's image."""
        source = EXAMPLES / "five_and_five.source"
        self.expect("the deck", program("assemble", source, "--deck", self.deck))
        end = ending("HALT", 414, 3, 6, shown="H 414")
        ran = program("run", "--load", self.deck, "--image", self.image)
        self.same("it halts", (ran.returncode, ran.stdout, ran.stderr[:21]), (0, b"", end.encode()[:21]))
        listed = program("disassemble", self.image)
        self.expect("its listing", listed, 0, program("disassemble", "--load", self.deck).stdout.decode())
        again = program("run", self.image)
        self.same("the image runs", (again.returncode, again.stderr[:21]), (0, end.encode()[:21]))

    def test_a_deck_punched_by_hand(self):
        """The image has what the listing of the deck has; the cards after it aren't in it."""
        ran = self.stored(HAND_PUNCHED + "DATA\n")
        self.same("it halts", (ran.returncode, ran.stderr[:21]), (0, b"ibm1401: HALT at 0500"))
        listing = program("disassemble", "--load", self.deck).stdout.decode().replace("*", " ")
        self.expect("its listing", program("disassemble", self.image), 0, listing)

    def test_what_else_is_asked_for(self):
        """The size, the switches and the files of a run are as without it."""
        ran = self.stored(HAND_PUNCHED, "--size", "16000", "--paper", self.paper, "--switches", "AG")
        self.same("it halts", (ran.returncode, self.paper.read_bytes()), (0, b""))
        self.same("the size", self.image.read_text().splitlines()[0], "IMAGE2 16000")

    def test_a_run_that_goes_wrong_after_it(self):
        """The image is stored before the run."""
        ran = self.stored(HAND_PUNCHED, "--limit", "1")
        self.same("the run", (ran.returncode, ran.stderr[:14]), (1, b"ibm1401: LIMIT"))
        self.same("the image", self.image.read_text()[:13], "IMAGE2 04000\n")

    def test_switches_count(self):
        """A loader that goes on to 500 if switch B is on, and else goes round."""
        deck = ",008013B500BB008\n"
        self.image.write_text("as it was\n")
        self.expect("off", self.stored(deck), 1, "", "ibm1401: the deck isn't loaded: LIMIT at 0013\n")
        self.nothing_is_stored("off")
        ran = self.stored(deck, "--switches", "B")
        self.check("on", "" if self.image.read_text().endswith("END 00500\n") else ran)

    def test_decks_that_are_not_loaded(self):
        for name, deck, why in [
            ("no card", "", "READER at 0000"),
            ("no last card", "".join(HAND_PUNCHED.splitlines(True)[:-1]), "READER at 0047"),
            ("no operation", "]\n", "OPCODE at 0001"),
            ("a loop", "B001\n", "LIMIT at 0001"),
        ]:
            self.image.write_text("as it was\n")
            self.expect(name, self.stored(deck), 1, "", f"ibm1401: the deck isn't loaded: {why}\n")
            self.nothing_is_stored(name)

    def test_an_image_that_cannot_be_written(self):
        """Nothing is run then."""
        self.deck.write_text(HAND_PUNCHED)
        for bad in self.folder / "none" / "image", self.folder, Path("/dev/full"):
            ran = program("run", "--load", self.deck, "--image", bad, "--paper", self.paper)
            self.expect(f"{bad.name}", ran, 1, "", f"ibm1401: cannot write {bad}\n")
            self.check(f"{bad.name}: no paper", "there is one" if self.paper.exists() else "")

    def test_standard_output(self):
        ran = program("run", "--load", "--image", "/dev/stdout", self.written())
        self.same("it", (ran.returncode, ran.stdout[:13]), (0, b"IMAGE2 04000\n"))

    def written(self):
        """The deck in its file."""
        self.deck.write_text(HAND_PUNCHED)
        return self.deck

    def test_names_of_one_file(self):
        deck = self.written()
        for words in (
            ["--image", deck], ["--image", self.image, "--paper", self.image],
            ["--image", self.image, "--punch", self.image], ["--image", self.image, "--trace", self.image],
            ["--image", self.image, "--cards", self.image],
        ):
            ran = program("run", "--load", deck, *words)
            names = [str(word) for word in words if not str(word).startswith("--")]
            self.same(f"{words[::2]}", (ran.returncode, ran.stderr.count(b"are one file\n")), (2, 1))
            self.check(f"{words[::2]}: named", "" if names[0] in ran.stderr.decode() else ran.stderr)
        self.holds("the deck is as it was", deck, HAND_PUNCHED)

    def test_misused(self):
        ran = program("run", self.written(), "--image", self.image)
        self.expect("without the load key", ran, 2, "", "error: ...")
        ran = program("run", "--load", "--size", "1399", self.deck, "--image", self.image)
        self.expect("no size of a machine", ran, 1, "", "ibm1401: size refused\n")
        self.check("no image", "there is one" if self.image.exists() else "")


if __name__ == "__main__":
    unittest.main()
