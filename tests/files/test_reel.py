"""`reel`: the listing of a reel, decks of reels and reels of decks, and what is refused; the same on i1401 itself."""
import os
import resource
import signal
import unittest

from tests.chains import BUSINESS, OURS
from tests.peer import deposits, peer, with_peer
from tests.support import EXAMPLES, MOST_CARDS, MOST_REEL_BYTES, NO_FILE, ProgramTest, misuse, program, shell

SALES = EXAMPLES / "sales.cards"
MARK = bytes(4)
EMPTY = "RECORDS 0 TAPE MARKS 0 CHARACTERS 0\n"


def codes(text, blank=0):
    """The characters of a text, each as a byte of its code; a blank as this code."""
    return bytes(OURS.index(each) or blank for each in text)


def between(body, before=None, after=None, odd=b"\0"):
    """A record of these bytes between its lengths, as SIMH has it."""
    sizes = [len(body) if each is None else each for each in (before, after)]
    odd = odd if len(body) % 2 else b""
    return sizes[0].to_bytes(4, "little") + body + odd + sizes[1].to_bytes(4, "little")


def refuse_large_files():
    """Has each write to a file fail in a process that is begun."""
    signal.signal(signal.SIGXFSZ, signal.SIG_IGN)
    resource.setrlimit(resource.RLIMIT_FSIZE, (0, 0))


class ReelTest(ProgramTest):
    """A folder with a reel."""

    def setUp(self):
        self.reel, self.deck, self.new = (self.folder / each for each in ("a.tap", "a.deck", "new"))

    def listed(self, text, *words):
        """A listing of the reel of these bytes."""
        self.reel.write_bytes(text)
        return program("reel", *words, self.reel)

    def made(self, text, *words):
        """The call that makes a deck of the reel of these bytes."""
        self.reel.write_bytes(text)
        return program("reel", *words, "--deck", self.new, self.reel)


class Listings(ReelTest):
    """What is listed of a reel."""

    def test_records_marks_and_counts(self):
        text = between(codes("AB C")) + MARK + between(codes("X")) + MARK + MARK
        wanted = ("000001 00004 AB C\n000002 TAPE MARK\n000003 00001 X\n000004 TAPE MARK\n000005 TAPE MARK\n"
                  "RECORDS 2 TAPE MARKS 3 CHARACTERS 5\n")
        self.expect("the listing", self.listed(text), 0, wanted)

    def test_all_characters_are_their_graphics(self):
        wanted = f"000001 00064 {OURS}\nRECORDS 1 TAPE MARKS 0 CHARACTERS 64\n"
        self.expect("without parity", self.listed(between(bytes(range(64)))), 0, wanted)
        self.expect("with it", self.listed(between(bytes(each | 64 for each in range(64)))), 0, wanted)
        self.expect("even parity", self.listed(between(bytes(range(64))), "--even-parity"), 0, wanted.replace("^", " "))

    def test_eighty_characters_are_on_a_line(self):
        for count in 79, 80, 81, 160, 161:
            body = ("0123456789" * 17)[:count]
            lines = [body[at:at + 80] for at in range(0, count, 80)]
            wanted = f"000001 {count:05} " + "\n             ".join(lines)
            counts = f"RECORDS 1 TAPE MARKS 0 CHARACTERS {count}\n"
            self.expect(f"{count} characters", self.listed(between(codes(body))), 0, f"{wanted}\n{counts}")

    def test_a_record_of_the_tape_mark_alone(self):
        wanted = "000001 TAPE MARK\nRECORDS 0 TAPE MARKS 1 CHARACTERS 0\n"
        self.expect("it", self.listed(between(codes("("))), 0, wanted)
        wanted = "000001 00002 ((\nRECORDS 1 TAPE MARKS 0 CHARACTERS 2\n"
        self.expect("two of it", self.listed(between(codes("(("))), 0, wanted)

    def test_reels_without_a_record_and_beyond_the_end(self):
        self.expect("no byte", self.listed(b""), 0, EMPTY)
        self.expect("the end at once", self.listed(b"\xff" * 4), 0, EMPTY)
        self.expect("what follows the end", self.listed(b"\xff" * 4 + b"??"), 0, EMPTY)

    def test_a_long_reel(self):
        """20,000 records, whose listing has many pages."""
        text = between(codes("ABC")) * 20_000
        wanted = "".join(f"{number:06} 00003 ABC\n" for number in range(1, 20_001))
        counts = "RECORDS 20000 TAPE MARKS 0 CHARACTERS 60000\n"
        self.expect("its listing", self.listed(text), 0, wanted + counts)


class Refusals(ReelTest):
    """Files that are no reels, and files that aren't there."""

    def test_faults_of_a_reel(self):
        good = between(codes("AB")) + MARK
        at = len(good)
        rows = [
            ("a length cut off", good + b"\2\0", f"CUT {at}"),
            ("a record cut off", good + between(codes("AB"))[:-5], f"CUT {at}"),
            ("the length after it cut off", good + between(codes("AB"))[:-1], f"CUT {at}"),
            ("a record with an error", good + between(codes("AB"), 0x80000002), f"FLAG {at}"),
            ("a gap", good + b"\xfe\xff\xff\xff", f"FLAG {at}"),
            ("lengths that differ", good + between(codes("AB"), after=3), f"LENGTH {at + 6}"),
            ("bit 7", good + between(b"\1\x80"), f"CHARACTER {at + 5}"),
            ("a text", b"HELLO", "CUT 0"),
        ]
        for name, text, why in rows:
            refusal = f"ibm1401: reel refused: {why}\n"
            self.expect(name, self.listed(text), 1, "", refusal)
            self.expect(f"{name}: a deck", self.made(text), 1, "", refusal)
            self.check(f"{name}: no deck", "" if not self.new.exists() else "it is there")

    def test_a_record_that_is_longer_than_a_card(self):
        text = between(codes("A")) + MARK + between(codes("B" * 81)) + between(codes("C" * 82))
        wanted = "ibm1401: record 3 is longer than a card, which has 80 columns\n"
        self.expect("it", self.made(text), 1, "", wanted)
        self.check("no deck", "" if not self.new.exists() else "it is there")

    def test_files_that_are_no_decks(self):
        for deck, why in ("A\x7f\n", "line 1, column 2: no card has this character"), (
                "A\n" + "B" * 81, "line 2, column 81: a card has 80 columns"):
            self.deck.write_text(deck)
            ran = program("reel", "--from-deck", self.deck, "-o", self.new)
            self.expect(why, ran, 1, "", f"ibm1401: {self.deck}: {why}\n")
            self.check(f"{why}: no reel", "" if not self.new.exists() else "it is there")

    def test_files_that_cannot_be_read(self):
        none = self.folder / "none"
        for words in [none], ["--deck", self.new, none], ["--from-deck", "-o", self.new, none]:
            self.expect("no file", program("reel", *words), 1, "", f"ibm1401: {none}: no such file\n")
        with self.reel.open("wb") as reel:
            reel.truncate(MOST_REEL_BYTES + 1)
        ran = program("reel", self.reel)
        self.expect("too long", ran, 1, "", f"ibm1401: {self.reel}: is larger than {MOST_REEL_BYTES} bytes\n")

    def test_a_deck_of_more_cards_than_the_file_of_a_reel_may_have(self):
        self.deck.write_bytes(b"\n" * (MOST_CARDS + 1))
        ran = program("reel", "--from-deck", self.deck, "-o", self.new)
        self.expect("one card more", ran, 1, "", "ibm1401: the deck is longer than a reel\n")
        self.check("no reel", "" if not self.new.exists() else "it is there")

    def test_the_reel_of_the_longest_deck_is_read_again(self):
        self.deck.write_bytes(b"\n" * MOST_CARDS)
        self.expect("it is made", program("reel", "--from-deck", self.deck, "-o", self.new))
        self.same("its bytes", self.new.stat().st_size, 88 * MOST_CARDS + 4)
        ran = program("reel", "--deck", "/dev/null", self.new)
        self.expect("it is read", ran)

    def test_names_of_one_file(self):
        self.reel.write_bytes(MARK)
        self.deck.write_text("A\n")
        for read, words in (self.reel, ["--deck"]), (self.deck, ["--from-deck", "-o"]):
            self.new.unlink(missing_ok=True)
            self.new.symlink_to(read)
            before = read.read_bytes()
            for other in read, self.new:
                ran = program("reel", *words, other, read)
                self.expect(f"{words} {other}", ran, 2, "", f"ibm1401: {read} and {other} are one file\n")
            self.holds("it stays", read, before)

    def test_files_that_cannot_be_written(self):
        self.reel.write_bytes(between(codes("A")))
        self.deck.write_text("A\n")
        for read, words in (self.reel, ["--deck"]), (self.deck, ["--from-deck", "-o"]):
            for name in self.folder, self.folder / "none/new", self.deck / "new":
                ran = program("reel", *words, name, read)
                self.expect(f"{words} {name}", ran, 1, "", f"ibm1401: cannot write {name}\n")
            self.new.write_text("old")
            ran = program("reel", *words, self.new, read, preexec_fn=refuse_large_files)
            self.expect(f"{words}: the file is too large", ran, 1, "", f"ibm1401: cannot write {self.new}\n")
            self.holds("it stays", self.new, "old")
            names = sorted(each.name for each in self.folder.iterdir())
            self.same("nothing is left", names, ["a.deck", "a.tap", "new"])

    def test_outputs_that_take_nothing(self):
        self.reel.write_bytes(between(codes("A")))
        for end in "> /dev/full", ">&-":
            self.expect(end, shell(f'"$0" reel "$1" {end}', self.reel), 1, "", "ibm1401: cannot write\n")

    def test_misused(self):
        usage = "reel [OPTIONS] <FILE>"
        self.expect("no file", program("reel"), 2, "", misuse(NO_FILE, "reel <FILE>"))
        self.expect("two", program("reel", "a", "b"), 2, "", misuse("unexpected argument 'b' found", usage))
        for words in (["--from-deck", "a"], ["-o", "new", "a"], ["--from-deck", "-o", "new", "--deck", "b", "a"],
                      ["--graphics", "none", "a"], ["--graphics", "simh", "a"]):
            self.same(f"{words}", program("reel", *words, cwd=self.folder).returncode, 2)


class Decks(ReelTest):
    """Decks made reels, and reels made decks."""

    def test_a_deck_made_a_reel_and_a_deck_again(self):
        cards = [*SALES.read_text().splitlines(), "", "A" * 80, OURS[1:]]
        self.deck.write_text("".join(f"{card}\n" for card in cards))
        ran = program("reel", "--graphics", "ours", "--from-deck", self.deck, "-o", self.reel)
        self.expect("the reel", ran)
        self.holds("it", self.reel, b"".join(between(codes(f"{card:80}")) for card in cards) + MARK)
        self.expect("the deck", program("reel", self.reel, "--deck", self.new))
        self.holds("it again", self.new, self.deck.read_bytes())

    def test_even_parity(self):
        self.deck.write_text("A B\n")
        ran = program("reel", "--even-parity", "--from-deck", self.deck, "-o", self.reel)
        self.expect("the reel", ran)
        self.holds("blanks are bit A alone", self.reel, between(codes(f"{'A B':80}", 16)) + MARK)
        self.expect("the deck", program("reel", "--even-parity", self.reel, "--deck", self.new))
        self.holds("it again", self.new, "A B\n")
        self.expect("as if it were odd", program("reel", self.reel, "--deck", self.new))
        self.holds("each is there", self.new, f"{'A^B':^<80}\n")

    def test_an_empty_deck(self):
        self.deck.write_text("")
        self.expect("the reel", program("reel", "--from-deck", self.deck, "-o", self.reel))
        self.holds("a mark alone", self.reel, MARK)
        self.expect("the deck", program("reel", self.reel, "--deck", self.new))
        self.holds("no card", self.new, "")

    def test_records_shorter_than_a_card_and_marks(self):
        text = between(codes("A")) + MARK + between(codes(f"{'B':80}")) + between(codes("C D  ")) + MARK
        self.expect("the deck", self.made(text))
        self.holds("it", self.new, "A\nB\nC D\n")

    def test_graphics(self):
        self.deck.write_text(f"{BUSINESS[1:]}\n")
        ran = program("reel", "--graphics", "simh", "--from-deck", self.deck, "-o", self.reel)
        self.expect("the reel", ran)
        self.holds("all codes", self.reel, between(bytes(range(1, 64)) + bytes(17)) + MARK)
        self.expect("the deck", program("reel", "--graphics", "simh", self.reel, "--deck", self.new))
        self.holds("it again", self.new, self.deck.read_bytes())

    def test_standard_output(self):
        self.reel.write_bytes(between(codes("A B")))
        ran = program("reel", self.reel, "--deck", "/dev/stdout")
        self.expect("a deck", ran, 0, "A B\n")
        self.deck.write_text("A\n")
        ran = program("reel", "--from-deck", self.deck, "-o", "/dev/stdout")
        self.same("a reel", (ran.returncode, ran.stdout), (0, between(codes(f"{'A':80}")) + MARK))

    def test_a_link_stays_and_its_file_is_written(self):
        self.reel.write_bytes(between(codes("A")))
        link = self.folder / "link"
        link.symlink_to("new")
        self.expect("the deck", program("reel", self.reel, "--deck", link))
        self.holds("its file", self.new, "A\n")
        self.same("the link", os.readlink(link), "new")


@with_peer
class Peer(ReelTest):
    """Reels on i1401 itself."""

    def test_a_reel_that_it_writes_is_listed(self):
        """Two records of even parity, each before a tape mark, the second loaded with a word mark; and one of odd."""
        core = deposits(800, 'HELLO WORLD~"') + deposits(820, 'AB~C~"')
        core += deposits(600, "~M%U1800W~U%U1M~L%U1820W~U%U1M~M%B1800W~.~.")
        said = peer(f"attach mt1 {self.reel}", *core, "go 600")
        self.check("it halts", "" if "HALT" in said else said)
        wanted = ("000001 00011 HELLO^WORLD\n000002 TAPE MARK\n000003 00004 AB=C\n000004 TAPE MARK\n"
                  "000005 00011 HELLO WORLD\nRECORDS 3 TAPE MARKS 2 CHARACTERS 26\n")
        self.expect("the listing", program("reel", self.reel), 0, wanted)
        ran = program("reel", "--even-parity", self.reel)
        self.expect("of even parity", ran, 0, wanted.replace("^", " "))

    def test_a_reel_of_a_deck_is_read_there(self):
        """Its first two records come to core storage, and then the tape mark turns the indicator on."""
        self.deck.write_text("FIRST CARD\nSECOND\n")
        ran = program("reel", "--even-parity", "--from-deck", self.deck, "-o", self.reel)
        self.expect("the reel", ran)
        core = deposits(600, "~M%U1801R~M%U1901R~M%U1950R~B700K~.~.") + deposits(700, "~.~.")
        said = peer(f"attach -r mt1 {self.reel}", *core, "go 600", "e -c 801-810", "e -c 901-906")
        self.check("the mark is read", "" if "IS: 701" in said else said)
        read = [line.split(":\t")[1] for line in said.splitlines() if ":\t" in line]
        self.same("the characters", read, list("FIRST CARDSECOND"))


if __name__ == "__main__":
    unittest.main()
