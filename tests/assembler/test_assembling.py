"""What `assemble` makes of a source: an image, a listing or tables, on standard output or in a file; and refusals."""
import re
import unittest
from pathlib import Path

from tests.source_texts import FAULTY_SOURCES, GOOD, IMAGE, LISTING
from tests.support import EXAMPLES, MOST_BYTES, NO_FILE, TOP, ProgramTest, misuse, program, shell

# Sources with a fault, each with the text of it.
FAULTS = [
    (" " * 81, "line 1: 2 LONG LINE"),
    ("               a", "line 1: 3 GRAPHIC"),
    ("     *\r\r\n", "line 1: 3 GRAPHIC"),
    ("     *\r", "line 1: 3 GRAPHIC"),
    ("     X1        DCW  #1", "line 1: 4 LABEL"),
    ("     A         DCW  #1\n     A         DCW  #1", "line 2: 5 DOUBLE LABEL"),
    ("               ZZZ\n" + " " * 81, "line 1: 6 OPERATION"),
    ("               B    Q", "line 1: 7 UNDEFINED"),
    ("               DS   0", "line 1: 8 OPERAND"),
    ("               END  9999", "line 1: 9 OUT OF CORE"),
    ("", "line 1: 10 NO END"),
    ("               END  0\n               H", "line 2: 11 AFTER END"),
]
# A source whose areas have a field, and its parts: the listing, the symbol table, the lines that name each label.
AREAS = """\
     REC       DA   2X4
     KEY            3,4
     OFFSET    EQU  KEY-1
               MLC  KEY,KEY
               END  REC
"""
AREAS_WARNED = [
    "3:6: WARNING: no operand names the label",
    "4:16: WARNING: no word mark is at 00348: the instruction runs on",
]
PARTS = {
    "--list": """\
0001 00333               REC       DA   2X4
0002 00335               KEY            3,4
0003 00335               OFFSET    EQU  KEY-1
0004 00341 M336336                 MLC  KEY,KEY
0005 00333                         END  REC
""",
    "--symbols": "REC    00333 00008 0001\nKEY    00336 00002 0002\nOFFSET 00335       0003\n",
    "--xref": "REC    0001 0005\nKEY    0002 0003 0004\nOFFSET 0003\n",
}
CHOICES = [
    ["--symbols"],
    ["--xref"],
    ["--symbols", "--xref"],
    ["--list", "--symbols"],
    ["--list", "--xref"],
    ["--list", "--symbols", "--xref"],
]


class Assembling(ProgramTest):
    """An image or a listing on standard output, or the fault that there is."""

    def setUp(self):
        self.source = self.folder / "a source"

    def assemble(self, text, *words):
        """A run of `assemble` with a source of this text."""
        self.source.write_text(text)
        return program("assemble", *words, self.source)

    def test_a_fault_is_reported_and_nothing_is_written(self):
        for text, fault in FAULTS:
            for words in [], ["--list"]:
                ran = self.assemble(text, *words)
                self.expect(f"{' '.join(words)} {fault}", ran, 1, "", f"ibm1401: {fault}\n")

    def test_a_fault_in_line_12345(self):
        ran = self.assemble("     *\n" * 12_343 + "               END  0\n               H\n")
        self.expect("after END", ran, 1, "", "ibm1401: line 12345: 11 AFTER END\n")

    def test_a_literal_needs_a_place(self):
        literal = "               ORG  1393\n               A    +5,0\n               END  0\n"
        ran = self.assemble(literal, "--size", "1400")
        self.expect("a literal after the last place", ran, 1, "", "ibm1401: line 3: 9 OUT OF CORE\n")
        image = "IMAGE2 02000\n01393 08 ~AU00000~E\nEND 00000\n"
        self.expect("the same with places left", self.assemble(literal, "--size", "2000"), 0, image)

    def test_areas_and_a_field_of_each(self):
        areas = "               ORG  500\n     REC       DA   2X4\n     KEY            3,4\n               END  KEY\n"
        image = "IMAGE2 04000\n00500 08 ~  ~  ~  ~  \nEND 00503\n"
        self.expect("the image", self.assemble(areas), 0, image)

    def test_a_listing_has_the_source_next_to_its_addresses(self):
        """It has neither a carriage return nor blanks at the end of a line, and it goes on after END."""
        source = (
            "               ORG  400\r\n     START     ZA   +5,TOTAL\n     TOTAL     DCW  #3\n"
            "     NAME      DCW  @TEN LETTERS@\n     * ONE LITERAL\n               END  START\n     * AFTER END  "
        )
        listing = """\
0001 00400                         ORG  400
0002 00400 ?421409       START     ZA   +5,TOTAL
0003 00407               TOTAL     DCW  #3
0004 00410 TEN LETT      NAME      DCW  @TEN LETTERS@
0005                     * ONE LITERAL
     00421 E        +5
0006 00400                         END  START
0007                     * AFTER END
"""
        self.expect("the listing", self.assemble(source, "--list"), 0, listing)

    def test_each_size_of_core_storage(self):
        outside = "ibm1401: line 1: 9 OUT OF CORE\n"
        for size in 1400, 2000, 4000, 8000, 12000, 16000:
            last = self.assemble(f"               END  {size - 1}\n", "--size", str(size))
            self.expect(f"the last place of {size}", last, 0, f"IMAGE2 {size:05}\nEND {size - 1:05}\n")
            ran = self.assemble(f"               END  {size}\n", "--size", str(size))
            self.expect(f"no place {size} of {size}", ran, 1, "", outside)
        ran = self.assemble("               END  9999\n", "--size", "12000")
        self.expect("an entry in 12,000 places", ran, 0, "IMAGE2 12000\nEND 09999\n")
        ran = self.assemble("               END  4000\n")
        self.expect("4,000 places where no size is named", ran, 1, "", outside)

    def test_no_other_size(self):
        for size in "0", "100", "1401", "4001", "16001", "65535":
            self.expect(size, self.assemble(GOOD, "--size", size), 1, "", "ibm1401: size refused\n")
        ran = program("assemble", "--size", "1401", self.folder / "none")
        self.expect("the size before the file", ran, 1, "", "ibm1401: size refused\n")

    def test_a_file_that_cannot_be_read(self):
        self.source.write_bytes(b" " * (MOST_BYTES + 1))
        for name in self.source, self.folder / "none", self.folder, "-":
            ran = program("assemble", name, cwd=self.folder)
            self.expect(f"{name} ends with 1", ran, 1, "", f"ibm1401: cannot read {name}\n")

    def test_streams_that_take_nothing(self):
        self.source.write_bytes(b"               END  0\n" + b"     *\n" * 100)
        for output in ">&-", ">/dev/full":
            for words in "", "--list":
                ran = shell(f'"$0" assemble {words} "$1" {output}', self.source)
                self.expect(f"assemble {words} {output}", ran, 1, "", "ibm1401: cannot write\n")
        self.expect("assemble 2>&-", shell('"$0" assemble "$1" 2>&-', self.source), 0, IMAGE)

    def test_misused(self):
        usage = "assemble [OPTIONS] <FILE>"
        for words, error in [
            ([], misuse(NO_FILE, "assemble <FILE>")),
            (["--list"], misuse(NO_FILE, "assemble --list <FILE>")),
            (["a", "b"], misuse("unexpected argument 'b' found", usage)),
            (["--size", "x", "a"], misuse("invalid value 'x' for '--size <N>': invalid digit found in string")),
            (["--listing", "a"], "error: unexpected argument '--listing' found\n..."),
        ]:
            self.expect(f"assemble {' '.join(words)} ends with 2", program("assemble", *words), 2, "", error)


class IntoAFile(ProgramTest):
    """`assemble -o`: a file is written whole or not at all."""

    def setUp(self):
        self.source, self.out = self.folder / "source", self.folder / "out"
        self.source.write_text(GOOD)

    def is_written(self, name, wanted):
        """Subtests: the file has this text, and nothing else is left in its folder."""
        self.holds(name, self.out, wanted)
        self.same(f"{name}, and nothing is left over", list(self.folder.glob("*.part")), [])

    def test_the_image_or_the_listing(self):
        out = self.out
        for words in ["-o", out], [f"--output={out}"], ["-o", out, "--all"], [f"--output={out}", "--all"]:
            name = " ".join(map(str, words)).replace(str(out), "OUT")
            self.expect(name, program("assemble", self.source, *words))
            self.is_written(f"{name}: the image", IMAGE)
            out.unlink()
            self.expect(f"{name}, with the source last", program("assemble", *words, self.source))
            self.is_written(f"{name}, with the source last: the image", IMAGE)
        self.expect("--list", program("assemble", "--list", "-o", out, self.source))
        self.is_written("--list: the listing", LISTING)

    def test_a_link_and_the_permissions_stay(self):
        self.out.write_text("")
        self.out.chmod(0o640)
        link = self.folder / "link"
        link.symlink_to(self.out)
        self.expect("-o LINK", program("assemble", self.source, "-o", link))
        self.is_written("-o LINK: the image", IMAGE)
        self.check("the link stays", "" if link.is_symlink() else "it is none")
        self.same("the permissions stay", self.out.stat().st_mode & 0o777, 0o640)

    def test_a_fault_leaves_the_file_as_it_was(self):
        self.out.write_text(IMAGE)
        self.source.write_text("               ZZZ\n")
        for words in [], ["--list"]:
            ran = program("assemble", self.source, "-o", self.out, *words)
            self.expect(f"{words}: a fault", ran, 1, "", "ibm1401: line 1: 6 OPERATION\n")
            self.is_written(f"{words}: a fault leaves the file as it was", IMAGE)
        ran = program("assemble", self.source, "-o", self.folder / "new")
        self.expect("a fault, without a file", ran, 1, "", "ibm1401: line 1: 6 OPERATION\n")
        self.check("a fault makes no file", "there is one" if (self.folder / "new").exists() else "")

    def test_a_file_that_cannot_be_written(self):
        for bad in self.folder / "none" / "out", self.folder, Path("/dev/full"):
            for words in [], ["--list"]:
                ran = program("assemble", self.source, "-o", bad, *words)
                self.expect(f"-o {bad.name} {words}", ran, 1, "", f"ibm1401: cannot write {bad}\n")
        self.check("a device stays one", "" if Path("/dev/full").is_char_device() else "it is a file")
        self.expect("-o /dev/null", program("assemble", self.source, "-o", "/dev/null"))

    def test_closed_streams(self):
        self.expect("it ends well", shell('"$0" assemble "$1" -o "$2" >&- 2>&-', self.source, self.out))
        self.is_written("the image", IMAGE)

    def test_misused(self):
        needed = misuse("a value is required for '--output <OUT>' but none was supplied")
        for words, error in (["-o"], needed), (["-o", self.out, "-o", self.out], "error: ..."):
            self.expect(f"{len(words)} words", program("assemble", self.source, *words), 2, "", error)


class Tables(ProgramTest):
    """The symbol table and the cross-reference, alone, together and after the listing."""

    def setUp(self):
        self.source, self.out = self.folder / "source", self.folder / "out"
        self.source.write_text(AREAS)

    def test_each_choice(self):
        for words in CHOICES:
            call, whole = " ".join(words), "\n".join(PARTS[word] for word in words)
            self.expect(call, program("assemble", *words, self.source), 0, whole)
            self.expect(f"{call}, in another order", program("assemble", self.source, *words[::-1]), 0, whole)
            warned = "".join(f"{self.source}:{line}\n" for line in AREAS_WARNED)
            self.expect(f"{call} --all", program("assemble", "--all", *words, self.source), 0, whole, warned)
            self.expect(f"{call} -o", program("assemble", *words, self.source, "-o", self.out))
            self.holds(f"{call} -o: its text", self.out, whole)

    def test_outputs_that_take_nothing(self):
        for words in CHOICES:
            call = " ".join(words)
            for output in ">&-", ">/dev/full":
                ran = shell(f'"$0" assemble {call} "$1" {output}', self.source)
                self.expect(f"{call} {output}", ran, 1, "", "ibm1401: cannot write\n")
            ran = program("assemble", *words, self.source, "-o", "/dev/full")
            self.expect(f"{call} -o /dev/full", ran, 1, "", "ibm1401: cannot write /dev/full\n")

    def test_a_source_without_labels(self):
        self.source.write_text(GOOD)
        for words in CHOICES:
            listed = LISTING if "--list" in words else ""
            self.expect(" ".join(words), program("assemble", *words, self.source), 0, listed)

    def test_a_fault_leaves_the_file_as_it_was(self):
        self.out.write_text(PARTS["--symbols"])
        for words in CHOICES:
            for text, fault in FAULTY_SOURCES:
                self.source.write_text(text)
                ran = program("assemble", *words, self.source, "-o", self.out)
                self.expect(f"{' '.join(words)}: {fault}", ran, 1, "", f"ibm1401: {fault}\n")
            self.holds(f"{' '.join(words)}: the file", self.out, PARTS["--symbols"])

    def test_misused(self):
        for words in ["--symbols=1"], ["--xref", "1"], ["--symbol", "--xrefs"]:
            ran = program("assemble", self.source, *words)
            self.expect(f"{' '.join(words)} ends with 2", ran, 2, "", "error: ...")

    def test_tables_of_an_example(self):
        five = EXAMPLES / "five_and_five.source"
        symbols = "START  00400 00007 0002\nTOTAL  00420 00003 0005\nNAME   00422 00002 0006\n"
        self.expect("its symbols", program("assemble", "--symbols", five), 0, symbols)
        both = f"{symbols}\nSTART  0002 0008\nTOTAL  0005 0002 0003\nNAME   0006\n"
        self.expect("both its tables", program("assemble", "--xref", five, "--symbols"), 0, both)

    def test_tables_of_formats(self):
        page = (TOP / "docs/FORMATS.md").read_text()
        shown = re.search(r"`ibm1401 (assemble --symbols [^`]*)` writes\n\n```text\n(.*?)```", page, re.DOTALL)
        self.expect("the tables", program(*shown[1].split(), cwd=TOP), 0, shown[2])


if __name__ == "__main__":
    unittest.main()
