"""`assemble --deck`: a deck that loads itself, with what else is asked for, written whole or not at all."""
import re
import unittest
from pathlib import Path

from tests.source_texts import FAULTY_SOURCES, GOOD, IMAGE, LISTING
from tests.support import EXAMPLES, TOP, ProgramTest, program, shell
from tests.assembler.test_diagnostics import FAULTY, LINES_OF_FAULTY

# The deck of the good source, which has no cells: storage is cleared, and the program begun.
DECK = """\
,008015,022029,036040,044051,056060/I99H039C039062B036/1001099
,047055,059063,067071,075079)044056,181L199099)060)081)181/039,0011040
                                       /000080
"""

# Core images: cells without a word mark, and none. Each has its last place as it is on the first card of its deck, and
# the cards after the second.
SHORT_DECKS = [
    ("IMAGE2 01400\n01399 01 A\n00081 01 Q\nEND 00000\n", "T99", """\
Q                                      M039119,040,040,040,040,040,040,0401040
A                                      M001T99,040,040,040,040,040,040,0401040
                                       /000080
"""),
    ("IMAGE2 04000\nEND 03099\n", "I99", "                                       /?99080\n"),
]
# The 64 characters by their codes, with a word mark at the first and the last. The first one is no operation.
CHARACTERS = r"""IMAGE2 01400
00100 32 ~ 1234567890#@:>(^/STUVWXYZ',%=\+
00132 32 -JKLMNOPQR!$*];_&ABCDEFGHI?.)[<~"
END 00100
"""
WORD_MARKS = """IMAGE2 02000
00200 40 ~1~2~3~4~5~6~7~8~9~0~1~2~3~4~5~6~7~8~9~0~1~2~3~4~5~6~7~8~9~0~1~2~3~4~5~6~7~8~9~0
00240 09 ~ ~ ~ ~ ~ ~ ~ ~ ~A
00230 03 X~ Y
00320 06 ~     X
01992 08 ~1~2~3~4~5~6~7~8
END 01999
"""
EACH_SIZE = [f"IMAGE2 {size:05}\n{size - 4:05} 04 ~1AB~C\n00081 03 A~BC\nEND {size - 4:05}\n"
             for size in (1_400, 2_000, 4_000, 8_000, 12_000, 16_000)]
# Images with something where the cards are read, or with blanks over it, and the place that is refused.
UNDER_THE_CARDS = [
    ("IMAGE2 01400\n00080 01 A\nEND 00400\n", 80),
    ("IMAGE2 01400\n00000 01 ~ \nEND 00400\n", 0),
    ("IMAGE2 01400\n00007 01 A\nEND 00400\n", 7),
    ("IMAGE2 01400\n00001 03    \n00078 04  12 \nEND 00400\n", 79),
    ("IMAGE2 01400\n00040 01 A\n00038 04     \nEND 00400\n", None),
]

# A source that has something where the cards are read, and how it is refused.
UNDER_THE_CARD = "               ORG  75\n               DCW  @      ABC@\n               END  0\n"
TAKEN = "ibm1401: place {:03} isn't blank: the deck's cards are read into 001 to 080\n"


def segments_of(image):
    """The segments of an image, each as its address and its cells."""
    return [(int(line[:5]), re.findall("~?.", line[9:])) for line in image.splitlines()[1:-1]]


def source_of(image):
    """A source that places the cells of an image, a constant for each."""
    lines = []
    for address, cells in segments_of(image):
        lines.append(f"ORG  {address}")
        lines += [f"{'DCW' if len(cell) == 2 else 'DC':5}@{cell[-1]}@" for cell in cells]
    return "".join(f"{'':15}{line}\n" for line in [*lines, f"END  {int(image[-6:])}"])


def storage_of(image):
    """All cells of core storage with those of an image."""
    storage = [" "] * int(image[7:12])
    for address, cells in segments_of(image):
        storage[address:address + len(cells)] = cells
    return storage


class OwnDecks(ProgramTest):
    """What `assemble --deck` writes."""

    def setUp(self):
        self.source, self.deck, self.out = (self.folder / each for each in ("source", "deck", "out"))
        self.source.write_text(GOOD)

    def assemble(self, *words):
        """A run of `assemble` with a deck."""
        return program("assemble", self.source, "--deck", self.deck, *words)

    def is_written(self, name, wanted, file=None):
        """Subtests: the deck, or another file, has this text, and nothing else is left in its folder."""
        self.holds(name, file or self.deck, wanted)
        self.same(f"{name}, and nothing is left over", list(self.folder.glob("*.part")), [])

    def test_the_deck_next_to_what_else_is_asked_for(self):
        for words, written in [
            ([], ""),
            (["--all"], ""),
            (["--list"], LISTING),
            (["--list", "--xref"], LISTING),
            (["--size", "4000"], ""),
        ]:
            for call in ["--deck", self.deck], [f"--deck={self.deck}"]:
                name = f"{' '.join(words)}, {len(call)} words"
                self.expect(name, program("assemble", *words, self.source, *call), 0, written)
                self.is_written(f"{name}: the deck", DECK)
                self.deck.unlink()

    def test_an_image_or_a_listing_as_well(self):
        self.expect("-o", self.assemble("-o", self.out))
        self.is_written("-o: the image", IMAGE, self.out)
        self.is_written("-o: the deck", DECK)
        self.expect("-o --list", self.assemble("-o", self.out, "--list"))
        self.is_written("-o --list: the listing", LISTING, self.out)

    def test_the_deck_on_standard_output(self):
        self.expect("it", program("assemble", self.source, "--deck", "/dev/stdout"), 0, DECK)

    def test_a_deck_for_16000_places(self):
        self.source.write_text("               END  15999\n")
        self.expect("it is written", self.assemble("--size", "16000"))
        self.is_written("the deck", DECK.replace("I99", "I9I").replace("/000080", "/I9I080"))

    def deck_of(self, image):
        """A run of `assemble` that writes the deck of an image's cells."""
        self.source.write_text(source_of(image))
        return self.assemble("--size", str(int(image[7:12])), "--language", "ibm")

    def test_the_cards_of_cells_without_a_word_mark_and_of_no_cells(self):
        for image, last, cards in SHORT_DECKS:
            self.expect(f"{image!r}: assemble --deck", self.deck_of(image))
            self.holds(image, self.deck, "".join(DECK.splitlines(True)[:2]).replace("I99", last) + cards)

    def test_each_cell_of_an_image_is_loaded(self):
        """Core storage is the image's when the program begins, and so is the entry."""
        for image in *(image for image, _, _ in SHORT_DECKS), CHARACTERS, WORD_MARKS, *EACH_SIZE:
            name, size = image[:60], image[7:12]
            self.expect(f"{name!r}: assemble --deck", self.deck_of(image))
            program("run", "--load", self.deck, "--size", str(int(size)), "--image", self.out, "--limit", "0")
            loaded = self.out.read_text()
            self.same(f"{name!r}: the size and the entry", (loaded[7:12], loaded[-6:]), (size, image[-6:]))
            self.same(f"{name!r}: the cells", storage_of(loaded), storage_of(image))

    def test_what_was_in_storage_is_cleared(self):
        """Each place has a character with a word mark before the load key is pressed."""
        self.expect("assemble --deck", self.deck_of(CHARACTERS))
        places = range(0, 1_400, 40)
        full = "".join(f"~{'?ABCDEFGHI'[at % 10]}" for at in range(40))
        lines = [f"DEPOSIT {at:04} {full}" for at in places]
        lines += [f"FEED {card}" for card in self.deck.read_text().splitlines()]
        lines += ["LOAD", "RUN 2000", *(f"EXAMINE {at:04} 40" for at in places)]
        ran = program("console", "--size", "1400", lines="".join(f"{line}\n" for line in lines).encode())
        replies = ran.stdout.decode().splitlines()
        before = len(lines) - len(places) - 1
        self.same("what is typed before the run", replies[:before], ["OK"] * before)
        is_at_entry = re.fullmatch(r"STOP 07 OPCODE STEPS \d+ I 00100", replies[before])
        self.check("it comes to the entry", "" if is_at_entry else replies[before])
        cells = [cell for reply in replies[before + 1:] for cell in re.findall("~?.", reply)]
        self.same("the cells", cells, storage_of(CHARACTERS))

    def test_the_places_of_a_card_are_refused(self):
        for image, place in UNDER_THE_CARDS:
            status, error = (0, "") if place is None else (1, TAKEN.format(place))
            self.expect(image, self.deck_of(image), status, "", error)

    def test_a_fault_leaves_the_file_as_it_was(self):
        self.deck.write_text(DECK)
        image = self.folder / "image"
        faults = [(text, f"ibm1401: {fault}\n") for text, fault in FAULTY_SOURCES]
        for text, fault in [*faults, (UNDER_THE_CARD, TAKEN.format(75))]:
            self.source.write_text(text)
            for words in [], ["--list"], ["-o", image], ["--symbols"]:
                name = f"{fault.strip()}, {' '.join(map(str, words[:1]))}"
                self.expect(name, self.assemble(*words), 1, "", fault)
                self.is_written(f"{name}: the file", DECK)
            ran = program("assemble", self.source, "--deck", self.folder / "new", "-o", image)
            self.expect(f"{fault.strip()}, without a file", ran, 1, "", fault)
            made = [each for each in ("new", "image") if (self.folder / each).exists()]
            self.same(f"{fault.strip()}: no file is made", made, [])

    def test_all_faults(self):
        self.source.write_text(FAULTY)
        lines = "".join(f"{self.source}:{line}\n" for line in LINES_OF_FAULTY)
        self.expect("--all", self.assemble("--all"), 1, "", lines)

    def test_a_deck_that_cannot_be_written(self):
        image = self.folder / "image"
        for bad in self.folder / "none" / "deck", self.folder, Path("/dev/full"):
            for words in [], ["--list"], ["-o", image]:
                ran = program("assemble", self.source, "--deck", bad, *words)
                name = f"{bad.name} {' '.join(map(str, words[:1]))}"
                self.expect(name, ran, 1, "", f"ibm1401: cannot write {bad}\n")
            self.check(f"{bad.name}: no image is written first", "there is one" if image.exists() else "")

    def test_an_image_that_cannot_be_written(self):
        self.expect("-o /dev/full", self.assemble("-o", "/dev/full"), 1, "", "ibm1401: cannot write /dev/full\n")

    def test_standard_output_that_takes_nothing(self):
        for words, status in ("", 0), ("--list", 1):
            for output in ">&-", ">/dev/full":
                ran = shell(f'"$0" assemble {words} "$1" --deck "$2" {output}', self.source, self.deck)
                error = "ibm1401: cannot write\n" if status else ""
                self.expect(f"{words} {output}", ran, status, "", error)
                self.is_written(f"{words} {output}: the deck", DECK)
                self.deck.unlink()

    def test_closed_streams(self):
        ran = shell('"$0" assemble "$1" --deck "$2" <&- >&- 2>&-', self.source, self.deck)
        self.expect("it ends well", ran)
        self.is_written("the deck", DECK)

    def test_misused(self):
        for words in ["--deck"], ["--deck", self.deck, "--deck", self.deck]:
            ran = program("assemble", self.source, *words)
            self.expect(f"{len(words)} words", ran, 2, "", "error: ...")

    def test_no_source_leaves_the_file_as_it_was(self):
        self.deck.write_text(DECK)
        none = self.folder / "none"
        for words, fault in [(["--size", "1401"], "size refused"), ([], f"cannot read {none}")]:
            ran = program("assemble", "--deck", self.deck, *words, none)
            self.expect(fault, ran, 1, "", f"ibm1401: {fault}\n")
            self.is_written(f"{fault}: the file", DECK)

    def test_the_deck_of_formats(self):
        page = (TOP / "docs/FORMATS.md").read_text()
        shown = re.search(r"## A deck that loads itself\n.*?```text\n(.*?)```", page, re.DOTALL)
        ran = program("assemble", EXAMPLES / "five_and_five.source", "--deck", "/dev/stdout")
        self.expect("the deck", ran, 0, shown[1])


if __name__ == "__main__":
    unittest.main()
