"""Images: what `load` takes and refuses and records, and what `disassemble` lists."""
import unittest

from tests.support import EXAMPLES, MOST_BYTES, MOST_ENTRIES, NO_FILE, TOP, ProgramTest, misuse, program, shell

FIVE = EXAMPLES / "five_and_five.image"
VERSION_1 = EXAMPLES / "five_and_five_version_1.image"


def segments(count):
    """The text of an image of this number of segments of one cell."""
    return b"IMAGE1 1400\n" + b"0000 01 A\n" * count + b"END 0000\n"
# Texts that are no images, by why they are refused: the first wrong line decides.
NO_IMAGES = {
    "2 HEADER": [
        "image1 4000\nEND 0000\n", "IMAGE1  4000\nEND 0000\n", "IMAGE1 4000 \nEND 0000\n",
        "IMAGE1 4000\r\nEND 0000\n", "IMAGE1 08000\n", "IMAGE2 04001\n", "IMAGE2 65536\n", "IMAGE2 70000\n",
        "IMAGE3 04000\nEND 00000\n", "\nIMAGE1 4000\nEND 0000\n",
    ],
    "3 RECORD": [
        "IMAGE1 4000\n\n", "IMAGE1 4000\nEND 0000\r\n", "IMAGE1 4000\nEND 000\n", "IMAGE1 4000\nEND 00000\n",
        "IMAGE2 04000\nEND 0000\n", "IMAGE1 4000\nEND 0000\nEND 0000\n", "IMAGE1 4000\nEND 0000\n ",
        "IMAGE1 1400\n1400 01 a\nEND 0000\n", "IMAGE1 4000\n400 01 A\nEND 0000\n",
        "IMAGE1 4000\n00400 01 A\nEND 0000\n", "IMAGE1 4000\n0400 1 A\nEND 0000\n",
        "IMAGE1 4000\n0400 01  A\nEND 0000\n", "IMAGE1 4000\n0400 01 A \nEND 0000\n",
        "IMAGE1 4000\n0400 01 ~\nEND 0000\n", "IMAGE1 4000\n0400 01 ~~A\nEND 0000\n",
        "IMAGE1 4000\n0400 00 \nEND 0000\n", "IMAGE1 4000\n0400 00 \n", "IMAGE1 4000\n0400 01 A\nX\n",
        "IMAGE1 4000\nEND 0400\nX\n", f"IMAGE1 4000\n0400 41 {'A' * 41}\nEND 0000\n",
    ],
    "4 RANGE": [
        "IMAGE2 08000\n99999 01 A\nX\n", "IMAGE2 16000\nEND 16000\n", "IMAGE1 4000\nEND 4000\n",
        "IMAGE1 4000\nEND 4000\nEND 0000\n", "IMAGE1 1400\n9999 01 A\nX\n",
    ],
    "5 TRUNCATED": ["IMAGE1 4001", "IMAGE1 4000\n", "IMAGE1 4000\nEND 0000"],
}


class Loaded(ProgramTest):
    """Images that are loaded, and the commands that this makes."""

    def setUp(self):
        self.image = self.folder / "an image"

    def load(self, content, lines, *words):
        """A session with an image of this content."""
        self.image.write_bytes(content)
        return program("load", *words, self.image, lines=lines)

    def test_an_image_of_version_1(self):
        lines, replies = (FIVE.with_suffix(suffix).read_bytes() for suffix in (".console", ".out"))
        self.expect("the session", program("load", VERSION_1, lines=lines), 0, replies)

    def test_an_image_is_loaded_before_the_first_line(self):
        ran = program("load", FIVE, lines=b"EXAMINE 0421 2\nQUIT\n")
        self.expect("the session", ran, 0, "~HI\nBYE\n")

    def test_a_later_segment_goes_over_an_earlier_one(self):
        content, lines = b"IMAGE1 1400\n0000 01 A\n0000 01 B\nEND 1399\n", b"EXAMINE 0\nEXAMINE 1400\nRUN 1\n"
        replies = "B\nREFUSED 1 ADDRESS\nSTOP 06 NOMARK STEPS 0 I 01399\n"
        self.expect("the session", self.load(content, lines), 0, replies)

    def test_an_image_of_16000_places(self):
        content, lines = b"IMAGE2 16000\n15999 01 ~N\nEND 15999\n", b"EXAMINE 15999\nEXAMINE 15999 2\nRUN 1\n"
        replies = "~N\nREFUSED 1 ADDRESS\nSTOP 01 LIMIT STEPS 1 I 00000\n"
        self.expect("the session", self.load(content, lines), 0, replies)

    def test_forty_cells_up_to_the_last_place(self):
        text = "ABCDEFGHIJ" * 3 + "ABCDEFGHI~ "
        for size in 1400, 16_000:
            content = f"IMAGE2 {size:05}\n{size - 40:05} 40 {text}\n00000 01 K\nEND {size - 1:05}\n"
            lines = f"EXAMINE {size - 40} 40\nEXAMINE 0\nRUN 1\n"
            replies = f"{text}\nK\nSTOP 07 OPCODE STEPS 0 I {size - 1:05}\n"
            self.expect(f"{size} places", self.load(content.encode(), lines.encode()), 0, replies)

    def test_its_commands_are_in_the_journal(self):
        """They are followed by those of the session."""
        kept = self.folder / "kept"
        entries = (
            "JOURNAL1 4000\n"
            "1\t0\tDEPOSIT 0400 ~?423420~A423420~.414~   ~HI~E\tOK\n"
            "2\t0\tSTART 0400\tOK\n"
            "3\t0\tRUN 10\tSTOP 02 HALT STEPS 3 I 00414\n"
            "4\t0\tEXAMINE 0418 3\t~01?\n"
        )
        assembled = program("assemble", EXAMPLES / "five_and_five.source", "-o", self.image)
        self.expect("a source is assembled", assembled)
        for loaded in self.image, FIVE, VERSION_1:
            lines, replies = b"RUN 10\nEXAMINE 0418 3\n", "STOP 02 HALT STEPS 3 I 00414\n~01?\n"
            ran = program("load", "--journal", kept, loaded, lines=lines)
            self.expect(f"{loaded.name}: loaded and run", ran, 0, replies)
            self.holds(f"{loaded.name}: four commands", kept, entries)
            kept.unlink()

    def test_a_journal_filled_by_an_image(self):
        kept, full = self.folder / "kept", segments(MOST_ENTRIES - 1)
        self.expect("the next command", self.load(full, b"REGS\n"), 0, "FAULT 2 JOURNAL FULL\n")
        ran = self.load(full, b"REGS\n", "--journal", kept)
        self.expect("where it is kept", ran, 0, "FAULT 2 JOURNAL FULL\n")
        self.expect("its entries", program("journal", "--check", kept), 0, f"{MOST_ENTRIES} entries\n")


class Refused(ProgramTest):
    """What isn't loaded."""

    def test_faulty_images(self):
        image, text = self.folder / "an image", FIVE.read_bytes()
        for name, content, error in [
            ("an image cut short", text[:-1], "image refused: 5 TRUNCATED"),
            ("an empty image", b"", "image refused: 5 TRUNCATED"),
            ("an image of another size", b"IMAGE1 4001\n", "image refused: 2 HEADER"),
            ("version 1 of 8,000 places", b"IMAGE1 8000\n", "image refused: 2 HEADER"),
            ("a size of version 2 in four digits", b"IMAGE2 4000\n", "image refused: 2 HEADER"),
            ("a line of version 1", b"IMAGE2 08000\n0400 01 A\nEND 00400\n", "image refused: 3 RECORD"),
            ("an image with a wrong count", text.replace(b" 24 ", b" 25 "), "image refused: 3 RECORD"),
            ("an image with a line feed more", text + b"\n", "image refused: 3 RECORD"),
            ("an image past its size", b"IMAGE1 1400\n1399 02 AB\nEND 0000\n", "image refused: 4 RANGE"),
            ("an image past 8,000 places", b"IMAGE2 08000\n07999 02 AB\nEND 00000\n", "image refused: 4 RANGE"),
            ("an image of 16,777,216 bytes", b"\n" * MOST_BYTES, "image refused: 2 HEADER"),
            ("a file of more", b"\n" * (MOST_BYTES + 1), f"cannot read {image}"),
            ("more segments than a journal has room for", segments(MOST_ENTRIES), "journal full"),
        ]:
            image.write_bytes(content)
            self.expect(name, program("load", image, lines=b"QUIT\n"), 1, "", f"ibm1401: {error}\n")

    def test_texts_that_are_no_images(self):
        image = self.folder / "an image"
        for fault, texts in NO_IMAGES.items():
            for text in texts:
                image.write_bytes(text.encode())
                ran = program("load", image, lines=b"QUIT\n")
                self.expect(repr(text), ran, 1, "", f"ibm1401: image refused: {fault}\n")

    def test_each_front_of_an_image_is_truncated(self):
        image = self.folder / "an image"
        for example in FIVE, VERSION_1:
            text = example.read_bytes()
            for end in range(len(text)):
                image.write_bytes(text[:end])
                ran = program("load", image, lines=b"QUIT\n")
                name = f"{end} bytes of {example.name}"
                self.expect(name, ran, 1, "", "ibm1401: image refused: 5 TRUNCATED\n")

    def test_files_that_cannot_be_read(self):
        for name in self.folder / "none", self.folder, "-", "":
            ran = program("load", name, lines=b"QUIT\n", cwd=self.folder)
            self.expect(f"load {name}", ran, 1, "", f"ibm1401: cannot read {name}\n")

    def test_misused(self):
        for words, error in [
            ([], misuse(NO_FILE, "load <FILE>")),
            (["a", "b"], misuse("unexpected argument 'b' found", "load [OPTIONS] <FILE>")),
            (["--size", "1400", "a"], "error: unexpected argument '--size' found\n..."),
        ]:
            self.expect(f"load {' '.join(words)}", program("load", *words), 2, "", error)


class Disassembled(ProgramTest):
    """What an image is listed as, and where nothing is listed."""

    def setUp(self):
        self.image = self.folder / "an image"

    def test_instructions_and_data(self):
        listing = FIVE.with_suffix(".disassembly").read_bytes()
        self.expect("an example", program("disassemble", FIVE), 0, listing)
        self.expect("the same of version 1", program("disassemble", VERSION_1), 0, listing)
        page = (TOP / "docs/OLD_DECKS.md").read_bytes()
        self.check("OLD_DECKS.md shows it", "" if b"```text\n" + listing + b"```\n" in page else "it shows another")

    def test_an_instruction_that_goes_on_in_the_next_segment(self):
        self.image.write_text("IMAGE2 04000\n00500 04 ~M510\n00504 03 509\n00507 04 ~Q0Z9\nEND 00500\n")
        listing = "00500 M510509  MCW  510,509\n00507 Q0Z9     SAR  099+X1\n00500          END  500\n"
        self.expect("its listing", program("disassemble", self.image), 0, listing)

    def test_what_is_no_instruction_is_data(self):
        """No word mark; no length of its operation; a feature that isn't fitted; a gap before it."""
        self.image.write_text("IMAGE2 16000\n00500 04 M510\n00504 02 ~B5\n00506 02 ~@1\n15999 01 N\nEND 15999\n")
        listing = ("00500          M510\n00504          ~B5\n00506          ~@1\n"
                   "15999          N\n15999          END  15999\n")
        self.expect("its listing", program("disassemble", self.image), 0, listing)

    def test_an_instruction_of_which_the_assembler_makes_other_cells_is_data(self):
        """A write with a d-character; a no operation of two characters; an address with a blank or a sign in it."""
        data = ["28", "2500S", "N1", "N12", "N5006", "SMITH J", "A 12", "M1-2345", "B5&0"]
        texts = [f"{500 + 20 * n:05} {len(each):02} ~{each}" for n, each in enumerate(data)]
        self.image.write_text("\n".join(["IMAGE2 04000", *texts, "END 00500", ""]))
        listing = "".join(f"{500 + 20 * n:05}          ~{each}\n" for n, each in enumerate(data))
        self.expect("it", program("disassemble", self.image), 0, f"{listing}00500          END  500\n")

    def test_what_is_listed_as_an_instruction_is_assembled_again(self):
        """Constants of every length that begin with each operation: the assembler makes their cells of the text."""
        rests = ["", "8", ")", "500", "5004", "500)", "I9I600", "0Z9500X", "5 06 0", "12&34&A", "A1", "ABCD"]
        cells = [f"{operation}{rest}" for operation in "AS?!MLDY,)/CZEBVQHN.K1234567F" for rest in rests]
        text = [f"{500 + 10 * n:05} {len(each):02} ~{each}" for n, each in enumerate(cells)]
        self.image.write_text("\n".join(["IMAGE2 16000", *text, "END 00500", ""]))
        listed = program("disassemble", self.image).stdout.decode().splitlines()[:-1]
        self.same("a line each", len(listed), len(cells))
        words = [(each, line) for each, line in zip(cells, listed) if line[6] != " "]
        self.check("some are data, and some aren't", "" if 50 < len(words) < len(cells) - 50 else f"{len(words)}")
        source = self.folder / "again"
        for each, line in words:
            source.write_text(f"               ORG  500\n{' ' * 15}{line[15:]}\n               END  0\n")
            wanted = f"IMAGE2 16000\n00500 {len(each):02} ~{each}\nEND 00000\n"
            ran = program("assemble", "--language", "ibm", "--size", "16000", source)
            self.expect(f"{each}, by {line[15:]}", ran, 0, wanted)

    def test_faulty_images(self):
        text = FIVE.read_bytes()
        for name, content, error in [
            ("an image cut short", text[:-1], "image refused: 5 TRUNCATED"),
            ("an image of another size", b"IMAGE1 4001\n", "image refused: 2 HEADER"),
            ("an image with a line feed more", text + b"\n", "image refused: 3 RECORD"),
            ("an image past its size", b"IMAGE1 1400\n1399 02 AB\nEND 0000\n", "image refused: 4 RANGE"),
        ]:
            self.image.write_bytes(content)
            self.expect(name, program("disassemble", self.image), 1, "", f"ibm1401: {error}\n")

    def test_files_that_cannot_be_read(self):
        self.image.write_bytes(b" " * (MOST_BYTES + 1))
        loop = self.folder / "loop"
        loop.symlink_to(loop)
        for name, fault in [
            (self.folder / "none", "no such file"),
            (self.folder, "is a folder"),
            ("-", "no such file"),
            (self.image, f"is larger than {MOST_BYTES} bytes"),
            (loop, "cannot be read"),
        ]:
            ran = program("disassemble", name, cwd=self.folder)
            self.expect(f"disassemble {name}", ran, 1, "", f"ibm1401: {name}: {fault}\n")

    def test_outputs_that_take_nothing(self):
        for end in ">&-", ">/dev/full":
            self.expect(end, shell(f'"$0" disassemble "$1" {end}', FIVE), 1, "", "ibm1401: cannot write\n")

    def test_misused(self):
        for words, error in [
            ([], misuse(NO_FILE, "disassemble <FILE>")),
            (["a", "b"], misuse("unexpected argument 'b' found", "disassemble [OPTIONS] <FILE>")),
        ]:
            self.expect(f"disassemble {' '.join(words)}", program("disassemble", *words), 2, "", error)


if __name__ == "__main__":
    unittest.main()
